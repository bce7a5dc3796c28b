#!/usr/bin/env python3
"""Prints the sizes of AES-128 by this mapper and by ABC: the tables of docs/case-studies.md.

    python3 examples/aes/sizes.py [--k 6 ..] [--only raw ..] [--form iterated] [--keep FOLDER]

Outside the gate, since it takes minutes. It needs Yosys and ABC, and a built tlut (or the variable TLUT). Each row is the best of the same
preparations, once for the least depth and once for the fewest LUTs: `tlut-compact` maps each one with the key as parameter, and ABC's `if`
and `if -a` with the key, or the round keys, as inputs, or with the key's value as constants.
"""

from __future__ import annotations

import argparse
import os
import sys
import tempfile
from dataclasses import dataclass

HERE = os.path.dirname(os.path.realpath(__file__))
TOP = os.path.dirname(os.path.dirname(os.path.dirname(os.path.dirname(HERE))))
sys.path.insert(0, TOP)

from tlutflow import tools
from tlutflow.abc_form import abc_text
from tlutflow.mappings import Sizes, sizes_by_abc, sizes_by_tlut
from tlutflow.netlist import read_library
from tlutflow.parameters import parameter_list
from tlutflow.preparations import GENLIB, PREPARATIONS, chosen
from tlutflow.text import write_text

KEY = 0x2B7E151628AED2A6ABF7158809CF4F3C
PARAMETERS = {f"key[{place}]": KEY >> place & 1 for place in range(128)}
# What ABC may take for a preparation, in seconds of processor time.
SECONDS = 1800
# Module by module, and then flat: the S-boxes are optimised once.
RECIPE = """read_verilog {source}
synth -top {top}
flatten
opt -fast
async2sync
dfflegalize -cell $_DFF_P_ 01
setundef -undriven -zero
opt_clean -purge
write_blif {out}
"""


@dataclass(frozen=True)
class Row:
    """A row: its title, its top, which mapper, whether the key is constant, and how many flip-flops hold keys."""

    title: str
    top: str
    is_ours: bool = False
    is_constant: bool = False
    held: int = 0


FORMS = {
    "pipeline": (
        Row("`tlut-compact`, the key as parameter", "aes", is_ours=True),
        Row("ABC, the key as input", "aes", held=128),
        Row("ABC, the round keys as inputs", "aes_rounds", held=1408),
        Row("ABC, the key as constant", "aes", is_constant=True),
    ),
    "iterated": (
        Row("`tlut-compact`, the key as parameter", "aes_iterated", is_ours=True),
        Row("ABC, the key as input", "aes_iterated", held=128),
        Row("ABC, the round keys as inputs", "aes_loop", held=1408),
        Row("ABC, each round key made from the last", "aes_on_the_fly", held=256),
        Row("ABC, the key as constant", "aes_iterated", is_constant=True),
    ),
}


def must(words: list[str]) -> None:
    """Runs a command that must end well."""
    ran = tools.run(words)
    if ran.returncode:
        sys.exit(f"{' '.join(words)}: {ran.stderr.strip() or ran.stdout.strip()}")


class Sizing:
    """Where netlists are made and mapped; what was made once stays."""

    def __init__(self, room: str):
        self.room, self.abc, self.program = room, tools.need(tools.ABC, "the sizes"), tools.tlut(None)
        os.makedirs(room, exist_ok=True)
        write_text(f"{room}/gates.genlib", GENLIB)
        write_text(f"{room}/key.par", parameter_list(PARAMETERS))

    def gates(self, top: str) -> str:
        """The netlist of a top, as Yosys makes it."""
        out = f"{self.room}/{top}.blif"
        if not os.path.exists(out):
            write_text(f"{self.room}/{top}.ys", RECIPE.format(source=f"{HERE}/aes.v", top=top, out=out))
            must([tools.need(tools.YOSYS, "the netlists"), "-q", "-s", f"{self.room}/{top}.ys"])
        return out

    def prepared(self, row: Row, name: str) -> str:
        """A row's netlist by a preparation."""
        base = f"{row.top}{'_constant' if row.is_constant else ''}"
        source, out = f"{base}_source.blif", f"{base}_{name}.blif"
        if not os.path.exists(f"{self.room}/{source}"):
            write_text(f"{self.room}/{source}", abc_text(read_library(self.gates(row.top)), PARAMETERS if row.is_constant else {}))
        if not os.path.exists(f"{self.room}/{out}"):
            commands = next(it.commands for it in PREPARATIONS if it.name == name)
            ran = tools.run_abc(self.abc, f"read_library gates.genlib; read_blif {source}; {commands}; write_blif {out}", self.room, SECONDS)
            if ran.status or not os.path.exists(f"{self.room}/{out}"):
                sys.exit(f"{base}, {name}: {tools.abc_failure(ran)}")
        return out

    def sizes(self, row: Row, name: str, k: int) -> list[tuple[Sizes, str]]:
        """The sizes of a row by a preparation, with what made them."""
        netlist = self.prepared(row, name)
        if row.is_ours:
            return [(sizes_by_tlut(self.program, k, f"{self.room}/{netlist}", f"{self.room}/key.par", self.room, "--compact"), name)]
        return [(sizes_by_abc(self.abc, k, netlist, words, self.room), f"{name}, `if{words}`") for words in ("", " -a")]


def printed(found: list[tuple[Sizes, str]]) -> list[str]:
    """The best for depth, and the best for few LUTs."""
    deep = min(found, key=lambda it: (it[0].depth, it[0].tables))
    small = min(found, key=lambda it: (it[0].tables, it[0].depth))
    return [word for it, by in (deep, small) for word in (f"{it.tables:,}", str(it.depth), by)]


def main() -> int:
    parser = argparse.ArgumentParser(description=__doc__, formatter_class=argparse.RawDescriptionHelpFormatter)
    parser.add_argument("--k", type=int, choices=range(2, 7), action="append", default=[], help="the inputs of a LUT (repeat it; default: 6)")
    parser.add_argument("--only", action="append", default=[], help="this preparation alone (repeat it; default: raw)")
    parser.add_argument("--form", choices=list(FORMS), action="append", default=[], help="this one alone (repeat it)")
    parser.add_argument("--keep", metavar="FOLDER", help="where the netlists stay")
    given = parser.parse_args()
    names = [it.name for it in chosen(given.only or ["raw"], [it for it in PREPARATIONS if not it.repeated])]
    with tempfile.TemporaryDirectory(prefix="aes-") as room:
        sizing = Sizing(os.path.abspath(given.keep or room))
        for form in given.form or FORMS:
            print(f"| {form} | K | least depth: LUTs | depth | by | fewest LUTs | depth | by | flip-flops with keys |\n" + "|---" * 9 + "|", flush=True)
            for k in given.k or [6]:
                for row in FORMS[form]:
                    cells = printed([it for name in names for it in sizing.sizes(row, name, k)])
                    print("| " + " | ".join([row.title, str(k), *cells, f"{row.held:,}"]) + " |", flush=True)
    return 0


if __name__ == "__main__":
    sys.exit(main())
