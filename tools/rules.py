#!/usr/bin/env python3
"""Prints the sizes by both rules of choice, and by ABC's `if`, in two tables, as in docs/performance.md.

    python3 tools/rules.py [--json docs/figures/rules.json]

Outside the gate. Call `./tlut` once before, to build both programs; it needs ABC. In the first table the parameters are inputs for ABC
alone, which has no parameters, and in the second one for all three. The designs are the examples from Verilog and those of
tools/designs.py. A cover that is a buffer isn't counted as a LUT. `a change` is how many bits a flip of one parameter rewrites: the mean
of 5,000 drawn flips from drawn values. The last lines are geometric means over the designs.
"""

from __future__ import annotations

import os
import sys
import tempfile
from dataclasses import dataclass
from statistics import geometric_mean, mean

TOP = os.path.dirname(os.path.dirname(os.path.abspath(__file__)))
sys.path.insert(0, TOP)
sys.path.insert(0, f"{TOP}/tools")

import designs
import shared
from tlutflow import tools
from tlutflow.abc_form import abc_text
from tlutflow.bus import Bus
from tlutflow.changes import SAMPLED, drawn_changes, rewritten
from tlutflow.mappings import Sizes, sizes_by_abc, sizes_by_tlut
from tlutflow.netlist import read_library
from tlutflow.parameters import read_parameters
from tlutflow.text import write_text

EXAMPLES = ["fir", "matcher", "coder"]
LARGER = {"multiplier": "multiplier, 16 by 16", "filter": "filter, 8 taps of 8 bits", "coder": "coder of 8 bits a cycle", "benes": "Benes network, 16 lines"}
SIZES = [4, 6]


RULES = {"tlut": (), "compact": ("--compact",)}
# The sizes of a design by a program, by name: `luts`, `depth`, `bits`, and `change` if it has parameters.
Found = dict[str, float]


@dataclass(frozen=True)
class Design:
    """A design: its title, its netlist and its list of parameters."""

    title: str
    netlist: str
    parameters: str


def listed(room: str) -> list[Design]:
    """The designs; the larger ones are written into a folder."""
    designs.write(room)
    found = [Design(name, f"{TOP}/examples/{name}/{name}.blif", f"{TOP}/examples/{name}/{name}.par") for name in EXAMPLES]
    return found + [Design(title, f"{room}/{name}.blif", f"{room}/{name}.par") for name, title in LARGER.items()]


def numbers_of(sizes: Sizes) -> Found:
    """The sizes of a mapped circuit, by name."""
    return {"luts": sizes.tables, "depth": sizes.depth, "bits": sizes.bits}


def change_of(pack: str, nets: list[str], room: str, many: int = SAMPLED) -> Found:
    """How many bits a flip of one parameter rewrites, the mean of many; nothing without parameters."""
    if not nets:
        return {}
    flips = drawn_changes(nets, [Bus(net, (net,)) for net in nets], many)
    return {"change": round(mean(rewritten(f"{TOP}/tlut", pack, flips, room)), 1)}


def sizes_of(design: Design, parameters: str, size: int, abc: str, room: str) -> dict[str, Found]:
    """The sizes by both programs and by ABC, for LUTs of this many inputs and this list of parameters."""
    found = {}
    for rule, words in RULES.items():
        mapped = numbers_of(sizes_by_tlut(f"{TOP}/tlut", size, design.netlist, parameters, room, *words))
        found[rule] = {**mapped, **change_of(f"{room}/bits.ppc", list(read_parameters(parameters)), room)}
    write_text(f"{room}/source.blif", abc_text(read_library(design.netlist), {}))
    found["abc"] = numbers_of(sizes_by_abc(abc, size, "source.blif", "", room))
    return found


def means_of(sizes: dict[str, dict[str, dict[str, Found]]], size: int) -> Found:
    """Geometric means over the designs: of LUTs and bits relative to ABC's, and of what a change rewrites by the second rule relative to the first."""
    rows = [it[str(size)] for it in sizes.values()]
    found = {f"{rule}_{what}": geometric_mean([it[rule][what] / it["abc"][what] for it in rows]) for rule in RULES for what in ("luts", "bits")}
    changes = [it["compact"]["change"] / it["tlut"]["change"] for it in rows if "change" in it["tlut"]]
    if changes:
        found.update(change=geometric_mean(changes), greatest_change=max(changes))
    return {name: round(value, 3) for name, value in found.items()}


def show(sizes: dict[str, dict[str, dict[str, Found]]], columns: dict[str, list[str]]) -> None:
    """Prints a table."""
    print("| Design | K | " + " | ".join(f"{who}: {' | '.join(whats)}" for who, whats in columns.items()) + " |")
    for title, by_size in sizes.items():
        for size, found in by_size.items():
            cells = [f"{found[who].get(what, '')}" for who, whats in columns.items() for what in whats]
            print(f"| {title} | {size} | " + " | ".join(cells) + " |")


def main() -> None:
    given = shared.saving(shared.words(__doc__)).parse_args()
    abc = tools.need(tools.ABC, "a comparison with ABC")
    found: dict[str, dict[str, dict[str, dict[str, Found]]]] = {"parameters": {}, "inputs": {}}
    with tempfile.TemporaryDirectory() as room:
        write_text(f"{room}/none.par", "")
        for design in listed(room):
            for kind, parameters in (("parameters", design.parameters), ("inputs", f"{room}/none.par")):
                found[kind][design.title] = {str(size): sizes_of(design, parameters, size, abc, room) for size in SIZES}
            print(design.title, file=sys.stderr, flush=True)
    show(found["parameters"], {"tlut": ["luts", "depth", "bits", "change"], "compact": ["luts", "depth", "bits", "change"], "abc": ["luts", "depth", "bits"]})
    show(found["inputs"], {who: ["luts", "depth", "bits"] for who in (*RULES, "abc")})
    means = {kind: {str(size): means_of(sizes, size) for size in SIZES} for kind, sizes in found.items()}
    print(means)
    shared.save(given.json, {**found, "means": means})


if __name__ == "__main__":
    main()
