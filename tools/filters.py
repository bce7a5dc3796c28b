#!/usr/bin/env python3
"""Measures filters and other sums of products with parameters, with the sums as tables and as arrays of gates.

    python3 tools/filters.py [--json FILE] [--only NAME ..] [--k K ..] [-j N]

For each design and K it prints LUTs and depth by `tlut --compact`: of the recipe's own preparation, in which a product is an array of gates; of
the netlist with tables that has the fewest LUTs, with the preparation that made it; and of ABC's `if` on the recipe's netlist with the parameters
as inputs. Last come geometric means. It needs Yosys, ABC and a built ./tlut, and takes some minutes.
"""

from __future__ import annotations

import argparse
import json
import math
import os
import sys
import tempfile
from dataclasses import dataclass

TOP = os.path.dirname(os.path.dirname(os.path.abspath(__file__)))
sys.path.insert(0, TOP)

from tlutflow import tools
from tlutflow.mappings import Sizes, sizes_by_abc, sizes_by_tlut
from tlutflow.text import write_text
from tlutflow.verilog.recipe import PREPARATION

SUMS = f"{TOP}/tlutflow/tests/designs/sums"
FILES = {"fir8": f"{TOP}/examples/fir8/fir8.v", "kernel": f"{TOP}/tlutflow/tests/designs/kernel.v"}
FILES |= {name: f"{SUMS}/{name}.v" for name in ("fir16s", "biquad", "conv5", "mixer", "layer", "horner", "fir12t")}
STYLES = ("tables", "prefix", "digits", "alldata")
CHOICES = [f"{style}{end}" for style in STYLES for end in ("", "_map", "_st")]


@dataclass(frozen=True)
class Row:
    """What a design takes at some K: LUTs and depth."""

    name: str
    k: int
    array: Sizes
    tables: Sizes
    by: str
    inputs: Sizes

    @property
    def ratio(self) -> float:
        """The LUTs of tables beside those of the array."""
        return self.tables.tables / self.array.tables

    def cells(self) -> list[str]:
        """The row of the table."""
        return [self.name, str(self.k), shown(self.array), f"{shown(self.tables)} ({self.by})", f"{self.ratio:.2f}", shown(self.inputs)]


def shown(it: Sizes) -> str:
    """LUTs and depth."""
    return f"{it.tables:,}/{it.depth}"


def must(words: list[str]) -> None:
    """Runs `flow`, which is to end well."""
    ran = tools.run([f"{TOP}/flow", *words])
    if ran.returncode:
        sys.exit(ran.stderr)


def compact(k: int, base: str, room: str) -> Sizes:
    """What `tlut --compact` makes of a netlist."""
    return sizes_by_tlut(tools.tlut(None), k, f"{base}.blif", f"{base}.par", room, "--compact")


def measured(name: str, k: int, jobs: int) -> Row:
    """A design at some K."""
    with tempfile.TemporaryDirectory(prefix="filters-") as room:
        words = ["verilog", FILES[name], "--top", name, "--k", str(k), "-j", str(jobs)]
        must([*words, "--abc", PREPARATION, "--out", f"{room}/array"])
        array = compact(k, f"{room}/array/{name}", room)
        found = {}
        for choice in CHOICES:
            must([*words, "--rule", "compact", "--for", "luts", "--only", choice, "--out", f"{room}/{choice}"])
            found[choice] = compact(k, f"{room}/{choice}/{name}", room)
        by = min(found, key=lambda it: (found[it].tables, found[it].depth))
        write_text(f"{room}/none.par", "")
        abc = tools.need(tools.ABC, "ABC's sizes")
        return Row(name, k, array, found[by], by, sizes_by_abc(abc, k, f"{room}/array/{name}.blif", "", room))


def main() -> int:
    parser = argparse.ArgumentParser(description=__doc__, formatter_class=argparse.RawDescriptionHelpFormatter)
    parser.add_argument("--json", metavar="FILE")
    parser.add_argument("--only", nargs="+", choices=list(FILES), default=list(FILES))
    parser.add_argument("--k", nargs="+", type=int, default=[4, 5, 6])
    parser.add_argument("-j", dest="jobs", type=int, default=0)
    given = parser.parse_args()
    rows = []
    print("| Design | K | array of gates | tables | ratio | ABC `if`, parameters as inputs |\n|---|---|---|---|---|---|", flush=True)
    for name in given.only:
        for k in given.k:
            rows.append(measured(name, k, given.jobs))
            print(f"| {' | '.join(rows[-1].cells())} |", flush=True)
    mean = math.exp(sum(math.log(it.ratio) for it in rows) / len(rows))
    print(f"\ngeometric mean of the ratios: {mean:.3f}")
    if given.json:
        found = [{"name": it.name, "k": it.k, "array": it.array.cells(), "tables": it.tables.cells(), "by": it.by, "inputs": it.inputs.cells()} for it in rows]
        write_text(given.json, json.dumps({"mean": round(mean, 3), "rows": found}, indent=1) + "\n")
    return 0


if __name__ == "__main__":
    sys.exit(main())
