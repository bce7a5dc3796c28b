"""`flow draw`: a picture of a mapped circuit."""

from __future__ import annotations

import argparse

from tlutflow.circuit import Circuit, read_circuit
from tlutflow.faults import Fault
from tlutflow.reports.drawing import drawing
from tlutflow.stages.picture import draw

HELP = "a picture of a mapped circuit"
DESCRIPTION = """Draws a mapped circuit from its inputs and latches on the left to its outputs on the right. LUTs whose bits read parameters are
orange and name them, LUTs that never change are grey, latches are blue with their next states as dashed edges, and the critical path
is red. Without --out it prints the drawing in the language of Graphviz; a file that ends in .svg, .png or .pdf needs Graphviz."""
EXAMPLE = """examples:
  flow draw fir_t.blif fir.ppc --out fir.svg
  flow draw fir_t.blif fir.ppc --cone y[3] --out y3.svg"""

# A drawing of more LUTs than this is hard to read, and slow to lay out.
MANY = 300


def add_words(parser: argparse.ArgumentParser) -> None:
    parser.add_argument("template", metavar="TEMPLATE", help="the template that `tlut map` wrote")
    parser.add_argument("pack", metavar="PACK", help="its pack")
    parser.add_argument("--out", metavar="FILE", help="the file: .svg, .png, .pdf, or .dot for Graphviz's language")
    parser.add_argument("--all", action="store_true", help=f"draw more than {MANY} LUTs too")
    parser.add_argument("--cone", metavar="NET", action="append", default=[], help="draw only what this output, register, bus or LUT is made of (repeat it)")


def ends_of(circuit: Circuit, names: list[str]) -> list[str]:
    """The nets of outputs, registers (their next states), buses of both, and LUTs, by their names."""
    nexts = {latch.state: latch.source for latch in circuit.latches}
    outputs, registers = circuit.buses(circuit.roots), circuit.buses(nexts)
    ends = []
    for name in names:
        found = [circuit.roots[net] for net in (outputs[name].nets if name in outputs else [name]) if net in circuit.roots]
        found = found or [nexts[net] for net in (registers[name].nets if name in registers else [name]) if net in nexts]
        found = found or [name] * (name in circuit.lut_of)
        if not found:
            there = [", ".join(bus.title for bus in buses.values()) or "none" for buses in (outputs, registers)]
            raise Fault(f"--cone {name}: it isn't an output, register or LUT; the outputs are {there[0]}, and the registers {there[1]}")
        ends += found
    return ends


def run(given: argparse.Namespace) -> int:
    circuit = read_circuit(given.template, given.pack)
    cone = circuit.cone(ends_of(circuit, given.cone)) if given.cone else None
    luts = len(circuit.luts) if cone is None else len(cone & set(circuit.lut_of))
    if luts > MANY and not given.all:
        raise Fault(f"{luts} LUTs are too many to read, so nothing was drawn: --cone NET draws the cone of one output, and --all draws all LUTs")
    if given.out is None:
        print(drawing(circuit, cone), end="")
    else:
        draw(circuit, given.out, cone)
    return 0
