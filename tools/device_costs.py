#!/usr/bin/env python3
"""Measures what tunable circuits take on devices beside their sources with registers: all tables of docs/device.md, and those of a device
in docs/case-studies.md.

    python3 tools/device_costs.py [--part PART ..] [--design NAME ..] [--keep FOLDER] [-j N] [--json docs/figures/device.json]

Without --part it measures all parts, one after another:

  sites    six designs on a Xilinx device of series 7: sites at each K by each rule, what Yosys counts of the circuit and of the source with
           its parameters in a chain of flip-flops, and whether the Verilog of `flow hdl --device xilinx7` and the netlist that Yosys
           synthesises of it play the run of a random script in Icarus Verilog, at each K
  clocks   clock rates of three designs on an iCE40 by nextpnr: the source with registers, the tunable circuit, and fixed values
  fixed    the filter of examples/fir for fixed values on an iCE40, as `flow device` reports it
  ports    the configuration ports of `flow hdl` on both devices, beside the source with registers

With --json the figures go to FILE, where those of other parts and designs stay. Then `python3 tools/doc_facts.py --update` writes them into
the pages. With --keep everything that is made stays in FOLDER, and a second call repeats only what has changed. It needs Yosys, Icarus
Verilog and nextpnr-ice40. The program is that of the variable TLUT, or ./tlut.
"""

from __future__ import annotations

import argparse
import json
import os
import sys
import tempfile
from concurrent.futures import ThreadPoolExecutor, as_completed
from typing import Any, Callable

import shared
from on_device import clocks, fixed, ports, sites, tables
from on_device.calls import must, program

# For each part its designs and how one of them is measured.
PARTS: dict[str, tuple[tuple[str, ...], Callable[[str, str], dict[str, Any]]]] = {
    "sites": (sites.DESIGNS, sites.measured),
    "clocks": (clocks.DESIGNS, clocks.measured),
    "fixed": (fixed.DESIGNS, fixed.measured),
    "ports": (tuple(ports.DESIGNS), ports.measured),
}


def kept(path: str) -> dict[str, Any]:
    """The figures of earlier calls."""
    if not path or not os.path.exists(path):
        return {}
    with open(path, encoding="utf-8") as file:
        found: dict[str, Any] = json.load(file)
    return found


def words() -> argparse.Namespace:
    """The command-line arguments."""
    parser = shared.saving(shared.words(__doc__))
    parser.add_argument("--part", action="append", default=[], choices=list(PARTS), help="measure this part alone (repeat it)")
    known = sorted({name for names, _ in PARTS.values() for name in names})
    parser.add_argument("--design", action="append", default=[], choices=known, help="measure this design alone (repeat it)")
    parser.add_argument("--keep", metavar="FOLDER", type=shared.path_of, help="where what is made stays")
    parser.add_argument("-j", dest="jobs", metavar="N", type=int, default=1, help="how many designs are measured at a time (default: 1)")
    return parser.parse_args()


def add(figures: dict[str, Any], part: str, name: str, found: dict[str, Any]) -> None:
    """Puts what was measured of a design among the figures, in the order of the part's designs, and what follows from it."""
    together = {**figures.get(part, {}), name: found}
    figures[part] = {it: together[it] for it in PARTS[part][0] if it in together}
    figures.update(tables.derived(figures))


def main() -> int:
    given = words()
    must([program(), "--version"])
    figures = kept(given.json)
    with tempfile.TemporaryDirectory(prefix="device-costs-") as room, ThreadPoolExecutor(given.jobs) as pool:
        wanted = [(part, name) for part in given.part or PARTS for name in PARTS[part][0] if name in given.design or not given.design]
        begun = {pool.submit(PARTS[part][1], name, f"{given.keep or room}/{part}"): (part, name) for part, name in wanted}
        for ended in as_completed(begun):
            part, name = begun[ended]
            add(figures, part, name, ended.result())
            print(f"{part}, {name}: {json.dumps(ended.result())}", file=sys.stderr, flush=True)
            shared.save(given.json, figures)
    print("\n".join(tables.shown(figures)))
    return 0


if __name__ == "__main__":
    sys.exit(main())
