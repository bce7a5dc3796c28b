"""`flow stream`: what the configuration port of `flow hdl` is sent."""

from __future__ import annotations

import argparse

from tlutflow.buses import assigned
from tlutflow.circuit import Circuit, bare_circuit, read_circuit
from tlutflow.commands.hdl import add_device_words, way_of
from tlutflow.faults import Fault
from tlutflow.pack import read_pack
from tlutflow.runs.output import parse_output
from tlutflow.text import read_input
from tlutflow.verilog.bench import operations_of
from tlutflow.verilog.hdl import Device, device_of
from tlutflow.verilog.names import names_of
from tlutflow.verilog.tables import Operation

HELP = "the data to send to the configuration port of `flow hdl` for new values"
DESCRIPTION = """Prints the data to send to the configuration port of the circuit that `flow hdl` wrote. Give it the options that `flow hdl` was given.

With NAME=VALUE arguments: for these values of the parameters, the others as in the pack. Without: for each line of stdin that writes bits,
which is what `tlut bits` or `tlut run` printed for the same pack.

  chain      one line of digits for a change, the first digit first; with --regions the digits of each chain, - if it stays
  random     one line for a change: NUMBER=BIT for each write, the bits that change; with --all for each bit that can change. With --word
             the digits of a word, its highest bit first

--target xilinx also needs --template, for the sizes of the LUTs."""
EXAMPLE = """examples:
  flow stream fir.ppc c1=7
  tlut bits fir.ppc sets.scr | flow stream fir.ppc --port random"""


def add_words(parser: argparse.ArgumentParser) -> None:
    parser.add_argument("pack", metavar="PACK", help="the pack that `tlut map` wrote")
    parser.add_argument("values", metavar="NAME=VALUE", nargs="*", help="new values of parameters; the others are as in the pack")
    add_device_words(parser)
    parser.add_argument("--template", metavar="TEMPLATE", help="the template that `tlut map` wrote with the pack")
    parser.add_argument("--all", action="store_true", help="with NAME=VALUE: all bits that can change, not only those that do")


def line_of(operations: list[Operation]) -> str:
    """The line of a change."""
    if operations and operations[0].word == "load":
        return " ".join(operations[0].values)
    return " ".join("=".join(it.values) for it in operations)


def of_values(given: argparse.Namespace, circuit: Circuit, device: Device) -> str:
    """The line for values of the parameters."""
    parameters = circuit.pack.parameters
    changed = assigned(given.values, circuit.buses(parameters), "parameters")
    after = circuit.pack.configuration({**parameters, **changed})
    if given.all:
        return line_of(device.whole(after))
    before = device.store.start
    writes = [(address, bit) for address, bit in enumerate(after) if bit != before[address]]
    return line_of(device.operations(before, after, writes, " ".join(given.values)) or ([] if hasattr(device, "width") else device.whole(after)))


def run(given: argparse.Namespace) -> int:
    if way_of(given).target == "xilinx" and not given.template:
        raise Fault("--target xilinx needs --template")
    circuit = read_circuit(given.template, given.pack) if given.template else bare_circuit(read_pack(given.pack), given.pack)
    device = device_of(circuit, names_of(circuit, "m"), way_of(given))
    if given.values:
        print(of_values(given, circuit, device))
        return 0
    if given.all:
        raise Fault("--all needs NAME=VALUE")
    output = parse_output(read_input(), "standard input")
    for sent in operations_of(device, output):
        if sent:
            print(line_of(sent))
    return 0
