"""`flow wave`: a waveform of a run."""

from __future__ import annotations

import argparse
import sys

from tlutflow.stages.runs import read_run
from tlutflow.text import read_input

HELP = "a waveform of a run, for GTKWave"
DESCRIPTION = """Reads what `tlut run` or `tlut pace` printed for SCRIPT on stdin, and prints a value change dump (VCD): the inputs, the parameters,
the registers' states and the outputs by their buses, a clock, and how many configuration bits a change wrote. If the output ends
before the script, the dump ends there too, and the status is 1.

Each event except image has ten units of time. The outputs of a cycle are shown over the states before its edge, which is at the end
of its ten units. During a set, a scrub, an upset, an ask or a tick that waits the outputs are x, since a run doesn't print them.
From an ask on the parameters have the values that were asked for."""
EXAMPLE = """example:
  tlut run 4 fir.blif fir.par fir.scr 0 0 | flow wave fir.blif fir.par fir.scr > fir.vcd"""


def add_words(parser: argparse.ArgumentParser) -> None:
    parser.add_argument("netlist", metavar="NETLIST", help="the netlist, in BLIF or AIGER")
    parser.add_argument("params", metavar="PARAMS", help="its parameter list")
    parser.add_argument("script", metavar="SCRIPT", help="the script of the run")


def run(given: argparse.Namespace) -> int:
    played = read_run(given.netlist, given.params, given.script, read_input(), "standard input")
    print(played.waveform(), end="")
    sys.stdout.flush()
    played.check_end()
    return 0
