"""`flow show`: the lines of a run with buses as numbers."""

from __future__ import annotations

import argparse
import sys

from tlutflow.faults import Fault
from tlutflow.parameters import read_interface
from tlutflow.runs.output import parse_output
from tlutflow.runs.script import read_script
from tlutflow.runs.waveform import check_end, pairs
from tlutflow.stages.runs import View, Viewer
from tlutflow.text import read_input

HELP = "the lines of a run with buses as numbers"
DESCRIPTION = """Reads what `tlut run` or `tlut pace` printed on stdin, and prints it with the outputs of each cycle line as numbers by their
buses. All other lines are unchanged. A port that is signed in Verilog is shown in two's complement, and one of more than 32 digits in
hexadecimal.

With SCRIPT the status is 1 if the output ends before the script does. Without it the status is 1 if stdin is empty."""
EXAMPLE = """example:
  tlut run 4 fir.blif fir.par fir.scr 0 0 | flow show fir.blif fir.par"""


def add_words(parser: argparse.ArgumentParser) -> None:
    parser.add_argument("netlist", metavar="NETLIST", help="the netlist, in BLIF or AIGER")
    parser.add_argument("params", metavar="PARAMS", help="its parameter list")
    parser.add_argument("script", metavar="SCRIPT", nargs="?", help="the script: with it an output that ends early is a fault")
    add_view_words(parser)


def add_view_words(parser: argparse.ArgumentParser) -> None:
    """The arguments on how a run is shown that `show` and `build` share."""
    parser.add_argument("--signed", metavar="BUS", action="append", default=[], help="show this bus of a run in two's complement (repeat it)")
    parser.add_argument("--hex", action="store_true", help="show the numbers of a run in hexadecimal")
    parser.add_argument("--states", action="store_true", help="also show the flip-flops' states after each cycle of a run, after a |")


def view_of(given: argparse.Namespace) -> View:
    """What these arguments choose."""
    return View(tuple(given.signed), given.hex, given.states)


def run(given: argparse.Namespace) -> int:
    interface = read_interface(given.netlist, given.params)
    viewer = Viewer(interface, view_of(given))
    text = read_input()
    output = parse_output(text, "standard input")
    events = read_script(given.script, interface.regular) if given.script else None
    for line in viewer.lines(output):
        print(line)
    sys.stdout.flush()
    if events is not None:
        check_end(len(events), output)
        list(pairs(events, output))
    elif not output.events and not output.header:
        raise Fault("stdin is empty: the run printed nothing")
    elif not text.endswith("\n"):
        raise Fault("stdin ends within a line")
    return 0
