"""`flow script`: a script from events with values of buses."""

from __future__ import annotations

import argparse

from tlutflow.parameters import read_interface
from tlutflow.runs.script_writer import script_lines
from tlutflow.text import read_input

HELP = "a script from events with values of buses"
DESCRIPTION = """Reads events on stdin, one per line, and prints the script for `tlut run`:

  cycle x=-3 rst=0     the clock ticks; an input that isn't named keeps its value, at first 0. `cycle 0110` has all digits, as in a script
  set coef=0x12        parameters change
  upset 3, scrub, image
                       as in a script
  tick x=-3, ask coef=0x12
                       as a cycle and a set, in a script for `tlut pace`

A bus is a name with all its indices, and its lowest index is the lowest digit; a single net may be named too. A value is decimal,
for example 18 or -3, or 0x12, 0b10010 or 8'h12. A # begins a comment."""
EXAMPLE = """example:
  printf 'cycle x=1\\ncycle x=2\\nset c1=7\\ncycle x=3\\n' | flow script fir.blif fir.par > fir.scr"""


def add_words(parser: argparse.ArgumentParser) -> None:
    parser.add_argument("netlist", metavar="NETLIST", help="the netlist, in BLIF or AIGER")
    parser.add_argument("params", metavar="PARAMS", help="its parameter list")


def run(given: argparse.Namespace) -> int:
    for line in script_lines(read_input(), "stdin", read_interface(given.netlist, given.params)):
        print(line)
    return 0
