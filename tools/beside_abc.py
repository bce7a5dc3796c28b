#!/usr/bin/env python3
"""Maps netlists of growing size by both programs and by ABC's `if`, and prints how large the results are and what they took.

    python3 tools/beside_abc.py [--json docs/figures/beside_abc.json] [--netlist WORD ..] [--runs N]

Outside the gate. Call `./tlut` once before, to build both programs; it needs ABC and Yosys. The netlists are the examples, those of
tools/shaping/generators.py in several sizes, and the designs of tools/trial_designs.py by one preparation of Yosys. Each is mapped with its
parameters and with these as ordinary inputs, for LUTs of 4, 5 and 6 inputs; to ABC a parameter is always an input.

Times are CPU seconds of a whole call, from the text of the netlist to the files that it writes: `map`, and for ABC `read_blif`, `strash`,
`if` and `write_blif`. Each is the least of some runs, in which the programs take turns. Memory is the greatest resident size in MB. `change`
is how many bits a flip of one parameter rewrites: the mean of 500 drawn flips from drawn values.

With --json the file keeps what it has of other netlists, so that some of them can be measured again by --netlist.
"""

from __future__ import annotations

import os
import sys
import tempfile
from itertools import chain
from statistics import geometric_mean
from typing import Callable, Iterable, Iterator, Optional

TOP = os.path.dirname(os.path.dirname(os.path.abspath(__file__)))
sys.path.insert(0, TOP)
sys.path.insert(0, f"{TOP}/tools")

import measured
import preparations
import shared
from rules import change_of
from shaping import generators, mapping_calls
from shaping.mapping_calls import Design, Numbers
from tlutflow import tools
from tlutflow.parameters import read_parameters
from tlutflow.text import write_text

SIZES = [4, 5, 6]
KINDS = ["parameters", "inputs"]
FLIPS = 500
PROGRAMS = dict(zip(("tlut", "compact"), shared.PROGRAMS))
SIZED: dict[str, Callable[[], generators.Netlist]] = {
    "multiplier, 8 by 8": lambda: generators.multiplier(8),
    "multiplier, 16 by 16": lambda: generators.multiplier(16),
    "multiplier, 32 by 32": lambda: generators.multiplier(32),
    "multiplier, 64 by 64": lambda: generators.multiplier(64),
    "filter, 4 taps of 8 bits": lambda: generators.filter_of(4, 8),
    "filter, 8 taps of 8 bits": lambda: generators.filter_of(8, 8),
    "filter, 16 taps of 8 bits": lambda: generators.filter_of(16, 8),
    "filter, 32 taps of 8 bits": lambda: generators.filter_of(32, 8),
    "filter, 16 taps of 16 bits": lambda: generators.filter_of(16, 16),
    "coder of 8 bits a cycle": lambda: generators.coder(32, 8),
    "coder of 32 bits a cycle": lambda: generators.coder(32, 32),
    "Benes network, 8 lines": lambda: generators.benes(8),
    "Benes network, 16 lines": lambda: generators.benes(16),
    "Benes network, 32 lines": lambda: generators.benes(32),
}


def examples() -> Iterator[Design]:
    """The examples from Verilog."""
    for name in ("fir", "matcher", "coder"):
        yield Design(f"{name} (example)", f"{TOP}/examples/{name}/{name}.blif", f"{TOP}/examples/{name}/{name}.par")


def sized(room: str) -> Iterator[Design]:
    """The netlists of tools/shaping/generators.py, in several sizes."""
    for place, (title, make) in enumerate(SIZED.items()):
        netlist = make()
        write_text(f"{room}/{place}.blif", netlist.text())
        write_text(f"{room}/{place}.par", "".join(f"{name} {i % 2}\n" for i, name in enumerate(netlist.params)))
        yield Design(title, f"{room}/{place}.blif", f"{room}/{place}.par")


def trials(room: str, is_wanted: Callable[[str], bool]) -> Iterator[Design]:
    """The wanted designs in Verilog, by one preparation."""
    for place, (title, (file, top, ports)) in enumerate(preparations.sources(room).items()):
        if title in preparations.STORED or not is_wanted(title):
            continue
        folder = f"{room}/trial{place}"
        os.makedirs(folder)
        files = preparations.synthesised(file, top, ports, folder)
        yield Design(title, files["quick.blif"], files["list.par"])


def measure(design: Design, abc: str, runs: int, room: str) -> Numbers:
    """All figures of a netlist."""
    mapping_calls.prepare(design, room)
    found: Numbers = {"ands": mapping_calls.ands_of(shared.PROGRAM, design, room), "number_of_parameters": len(read_parameters(design.parameters))}
    for kind, parameters in mapping_calls.lists_of(design, room).items():
        nets = list(read_parameters(parameters))

        def count(name: str, at: str, its: list[str] = nets) -> Numbers:
            numbers = mapping_calls.counted(name, at)
            return numbers if name == "abc" or "refusal" in numbers else {**numbers, **change_of(f"{at}/{mapping_calls.PACK}", its, at, FLIPS)}

        jobs = {size: mapping_calls.jobs_of(PROGRAMS, design, parameters, size, abc, room) for size in SIZES}
        found[kind] = {str(size): mapping_calls.mapped(its, runs, room, count) for size, its in jobs.items()}
    return found


def mean(ratios: Iterable[float]) -> float:
    """The geometric mean of some ratios; 0 of none."""
    listed = list(ratios)
    return round(geometric_mean(listed), 5) if listed else 0


def ratios_of(found: Numbers, kind: str, size: int, above: tuple[str, str], below: tuple[str, str]) -> dict[str, float]:
    """What one program has of something relative to another one, by netlist: of those that both map, and with parameters if they count."""
    listed = [(title, it[kind][str(size)]) for title, it in found.items() if kind == "inputs" or it["number_of_parameters"]]
    return {title: by[above[0]][above[1]] / by[below[0]][below[1]] for title, by in listed if above[1] in by[above[0]] and by[below[0]].get(below[1])}


def means_of(found: Numbers) -> Numbers:
    """Geometric means over all netlists: LUTs relative to ABC's, and what a change rewrites by the second rule relative to the first."""
    means: Numbers = {"netlists": len(found), **{kind: {} for kind in KINDS}}
    for size in SIZES:
        for kind in KINDS:
            means[kind][str(size)] = {who: mean(ratios_of(found, kind, size, (who, "luts"), ("abc", "luts")).values()) for who in ("tlut", "compact")}
        changes = ratios_of(found, "parameters", size, ("compact", "change"), ("tlut", "change"))
        means["parameters"][str(size)].update(change=mean(changes.values()), greatest_change=round(max(changes.values(), default=0), 1))
    means["greatest_change"] = max(it["greatest_change"] for it in means["parameters"].values())
    return means


def start_of(abc: str, runs: int, room: str) -> float:
    """The CPU seconds of a call of ABC that does nothing, the least of some."""
    return min(round(measured.run(room, [abc, "-q", "version"]).processor, 3) for _ in range(3 * runs))


def shown(title: str, found: Numbers) -> None:
    """Prints the figures of a netlist."""
    print(f"{title}: {found['ands']} AND nodes, {found['number_of_parameters']} parameters")
    for kind in KINDS:
        for size, by in found[kind].items():
            print(f"  {kind}, K {size}: " + "; ".join(f"{name} " + " ".join(f"{what} {it}" for what, it in its.items()) for name, its in by.items()), flush=True)


def main() -> int:
    parser = shared.saving(shared.words(__doc__))
    parser.add_argument("--netlist", metavar="WORD", action="append", default=[], help="only netlists with this word in their title (repeatable)")
    parser.add_argument("--runs", metavar="N", type=int, default=7, help="how often each call is run (default: 7)")
    given = parser.parse_args()
    abc: Optional[str] = tools.need(tools.ABC, "a comparison with ABC")

    def is_wanted(title: str) -> bool:
        return not given.netlist or any(word in title for word in given.netlist)

    found: Numbers = mapping_calls.kept(given.json)
    with tempfile.TemporaryDirectory() as room:
        for design in chain(examples(), sized(room), trials(room, is_wanted)):
            if is_wanted(design.title):
                found[design.title] = measure(design, str(abc), given.runs, room)
                shown(design.title, found[design.title])
                listed = dict(sorted(found.items(), key=lambda it: int(it[1]["ands"])))
                shared.save(given.json, {"abc_start_seconds": start_of(str(abc), given.runs, room), "means": means_of(found), "netlists": listed})
    return 0


if __name__ == "__main__":
    sys.exit(main())
