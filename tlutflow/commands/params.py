"""`flow params`: a parameter list from values of buses."""

from __future__ import annotations

import argparse

from tlutflow.buses import assigned, buses_of
from tlutflow.netlist import read_library
from tlutflow.parameters import data_inputs, parameter_list
from tlutflow.port_file import find_ports

HELP = "a parameter list from values of buses"
DESCRIPTION = """Prints a parameter list for NETLIST: the named buses are its parameters, with these values.

A bus is a name with all its indices, and its lowest index is the lowest digit; a single net may be named too. A value is decimal,
for example 18 or -3, or 0x12, 0b10010 or 8'h12."""
EXAMPLE = """example:
  flow params fir.blif c0=5 c1=3 c2=0b110 > fir.par"""


def add_words(parser: argparse.ArgumentParser) -> None:
    parser.add_argument("netlist", metavar="NETLIST", help="the netlist, in BLIF or AIGER")
    parser.add_argument("values", metavar="PORT=VALUE", nargs="*", help="a bus that is a parameter, with its value")


def run(given: argparse.Namespace) -> int:
    library = read_library(given.netlist)
    buses = buses_of(data_inputs(library), find_ports([given.netlist], library.main.name))
    print(parameter_list(assigned(given.values, buses, f"inputs of {library.file}")), end="")
    return 0
