"""`flow report`: what a mapped circuit has."""

from __future__ import annotations

import argparse
import json

from tlutflow.circuit import Circuit, Lut, read_circuit
from tlutflow.faults import Fault
from tlutflow.reports.formula import Formulas
from tlutflow.reports.statistics import as_json, statistics, text_of

HELP = "what a mapped circuit has: LUTs, bits, parameters, the critical path"
DESCRIPTION = """Prints of a mapped circuit: its LUTs by leaves and by depth; how many bits, and how many LUTs by all their bits, read no parameter (they
never change), one, or several; how many bits and LUTs each parameter is in; and the critical path, from an input or a latch through
LUTs to an output or a latch.

With --bits also the functions of the bits: a line for each, with its address, the values of the leaves that select it (leaf 0 first), and
the function. `!` is not, `&` and, `|` or, `^` exclusive or, and `c ? a : b` is a choice. A function that several
bits share has a name, for example g17, and a line of its own after the LUT."""
EXAMPLE = """examples:
  tlut map 4 fir.blif fir.par fir_t.blif fir.ppc
  flow report fir_t.blif fir.ppc
  flow report fir_t.blif fir.ppc --bits --lut _n51"""


def add_words(parser: argparse.ArgumentParser) -> None:
    parser.add_argument("template", metavar="TEMPLATE", help="the template that `tlut map` wrote")
    parser.add_argument("pack", metavar="PACK", help="its pack")
    parser.add_argument("--bits", action="store_true", help="the functions of the bits")
    # The second word is the earlier one.
    parser.add_argument("--lut", "--table", metavar="NET", action="append", default=[], help="with --bits: only this LUT (repeat it)")
    parser.add_argument("--json", action="store_true", help="all of it in JSON, for other programs")


def chosen_luts(circuit: Circuit, nets: list[str]) -> list[Lut]:
    """The LUTs of these nets, or all if none is named."""
    for net in nets:
        if net not in circuit.lut_of:
            raise Fault(f"--lut {net}: {circuit.name} has no LUT of this net; report --json lists them")
    return [circuit.lut_of[net] for net in nets] or circuit.luts


def lut_lines(lut: Lut, formulas: Formulas) -> list[str]:
    """The functions of a LUT's bits."""
    texts = [formulas.of_bit(address) for address in lut.addresses]
    width = len(str(lut.addresses[-1]))
    lines = [f"LUT {lut.net}: {', '.join(lut.leaves) or 'no leaves'}"]
    for place, text in enumerate(texts):
        values = "".join(str(place >> leaf & 1) for leaf in range(len(lut.leaves)))
        lines.append("  ".join(filter(None, [f"  {lut.first + place:{width}}", values, text])))
    return lines + [f"  where {line}" for line in formulas.definitions(texts)]


def run(given: argparse.Namespace) -> int:
    circuit = read_circuit(given.template, given.pack)
    formulas = Formulas(circuit.pack)
    if given.json:
        print(json.dumps(as_json(circuit, formulas), indent=1))
        return 0
    print("\n".join(text_of(statistics(circuit), circuit.buses(circuit.pack.parameters).values())))
    if given.bits:
        for lut in chosen_luts(circuit, given.lut):
            print("\n" + "\n".join(lut_lines(lut, formulas)))
    return 0
