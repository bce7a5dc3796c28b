#!/usr/bin/env python3
"""Writes netlists with parameters, and times each stage of their mapping, with ABC's mapping for comparison.

    python3 tools/designs.py write ROOM           writes netlists and lists of parameters into the folder ROOM
    python3 tools/designs.py time [--json docs/figures/stages.json] [PROGRAM] [K]
                                                  runs `stages` of the built program bench_mapping on four of them and on the examples,
                                                  after `rt run` in crates/bench_mapping has built it, with LUTs of K inputs (4),
                                                  and ABC if it is installed
    python3 tools/designs.py cuts PROGRAM..       runs several of these programs in turn, for example before and after a change, and
                                                  prints how long each takes for the cuts of the four netlists at K 4 and 6
    python3 tools/designs.py shapes [--json docs/figures/shapes.json] [--limit] [--million] [--netlist WORD ..] [--k K ..] [--runs N] [PROGRAM ..]
                                                  maps shapes with parameters in several sizes by `tlut`, `tlut-compact` and ABC in turn,
                                                  prints sizes, CPU seconds and memory as a table, and then which goals are missed: the
                                                  depth of `tlut-compact` is that of `tlut`, its time at most ABC's, its memory at most
                                                  twice ABC's. With --limit also a size near the limit of AND nodes of each shape;
                                                  with --million two netlists of a million AND nodes, for which 2 GB are the most memory

Outside the gate. The netlists are those of tools/shaping/generators.py. The four are a multiplier of two factors of 16 bits, without parameters;
a filter of 8 taps of 8 bits, whose coefficients are parameters; a coder of 8 bits a cycle into a remainder of 32 bits, whose polynomial is
the parameters; and a Benes network of 16 lines, whose 56 switches are the parameters.
"""

from __future__ import annotations

import os
import re
import resource
import subprocess
import sys
import tempfile
from typing import Callable, Optional

TOP = os.path.dirname(os.path.dirname(os.path.abspath(__file__)))
sys.path.insert(0, TOP)

import shared
from shaping import shapes
from shaping.generators import Netlist, benes, coder, filter_of, multiplier
from tlutflow import tools

EXAMPLES = f"{TOP}/crates/tlut_examples/data"
STAGES = ["read", "flatten", "graph", "cuts", "labels", "certificate", "cover", "functions", "cycles", "changes"]
EVENTS = 1000
RUNS = 80
# How often `cuts` runs each program, by K.
TURNS = {4: 60, 6: 16}
ABC_RUNS = 10
ABC_TIMES = 20

DESIGNS: dict[str, Callable[[], Netlist]] = {"multiplier": multiplier, "filter": filter_of, "coder": coder, "benes": benes}
LISTED = {
    "fir (example)": ("fir/fir.blif", "fir/fir.par"),
    "matcher (example)": ("matcher/matcher.blif", "matcher/matcher.par"),
    "coder (example)": ("coder/coder.blif", "coder/coder.par"),
    "mux (example)": ("mux/mux.blif", "mux/mux.par"),
}


def write(room: str) -> dict[str, list[str]]:
    """Writes the designs, and answers the files of each, those of the examples first."""
    files = {name: [f"{EXAMPLES}/{file}" for file in pair] for name, pair in LISTED.items()}
    for name, make in DESIGNS.items():
        files[name] = shapes.write(room, make())
    return files


def stages(program: str, k: int, files: list[str], times: int = RUNS) -> dict[str, tuple[str, int]]:
    """The counts of each stage, and the least of its times in some runs, in microseconds."""
    least: dict[str, tuple[str, int]] = {}
    for _ in range(times):
        words = [program, "stages", str(k), *files, str(EVENTS), str(EVENTS)]
        ran = subprocess.run(words, capture_output=True, text=True, check=True)
        for line in ran.stdout.splitlines():
            stage, rest = line.split(": ", 1)
            counts, took = rest.rsplit(", ", 1)
            micros = int(took.split()[0])
            least[stage] = (counts, min(micros, least.get(stage, (counts, micros))[1]))
    return least


def used() -> float:
    """The processor time of all processes that were started and have ended, in microseconds."""
    times = resource.getrusage(resource.RUSAGE_CHILDREN)
    return 1e6 * (times.ru_utime + times.ru_stime)


def abc_time(abc: str, k: int, file: str, room: str) -> tuple[float, str]:
    """The processor time of a mapping by ABC, as the least mean of many in one call, and what it prints before and after one."""
    graph = f"{room}/graph.aig"

    def run(commands: str) -> tuple[float, str]:
        before = used()
        ran = subprocess.run([abc, "-q", commands], capture_output=True, text=True, check=True)
        return used() - before, ran.stdout

    run(f"read_blif {file}; strash; write_aiger {graph}")
    with_it, without = (min(run(f"read_aiger {graph}; {mapped}" * ABC_TIMES)[0] for _ in range(ABC_RUNS)) for mapped in (f"if -K {k}; ", ""))
    printed = re.sub("\x1b[^m]*m", "", run(f"read_aiger {graph}; print_stats; if -K {k}; print_stats")[1])
    lines = [" ".join(line.split(":", 1)[1].split()) for line in printed.splitlines() if "lev" in line]
    return max(0, with_it - without) / ABC_TIMES, " / ".join(lines)


def parameters_of(file: str) -> int:
    """How many parameters a list has."""
    with open(file, encoding="ascii") as it:
        return sum(1 for line in it if line.split("#")[0].strip())


def show(program: str, k: int, json: Optional[str]) -> None:
    """Prints what came of each stage, and then a table of all times in milliseconds."""
    abc = tools.find(tools.ABC)
    kept: dict[str, dict[str, object]] = {}
    rows = [["Netlist", *STAGES, "ABC"], ["---"] * (len(STAGES) + 2)]
    with tempfile.TemporaryDirectory() as room:
        for name, files in write(room).items():
            least = stages(program, k, files)
            print(f"{name}, K {k}")
            for stage, (counts, _) in least.items():
                print(f"  {stage}: {counts}")
            times = {stage: least[stage][1] / 1000 for stage in STAGES if stage in least}
            kept[name] = {"parameters": parameters_of(files[1]), "counts": {stage: counts for stage, (counts, _) in least.items()}, "ms": times}
            row = [name, *(f"{least[stage][1] / 1000:.2f}" if stage in least else "" for stage in STAGES), ""]
            if abc:
                micros, line = abc_time(abc, k, files[0], room)
                print(f"  ABC: {line}", flush=True)
                row[-1] = f"{micros / 1000:.1f}"
                times["ABC"] = round(micros / 1000, 1)
            rows.append(row)
    for row in rows:
        print("| " + " | ".join(row) + " |")
    shared.save(json, kept)


def compare(programs: list[str]) -> None:
    """Prints how long each program takes for the cuts, run in turn, and ABC for its mapping, in milliseconds."""
    abc = tools.find(tools.ABC)
    with tempfile.TemporaryDirectory() as room:
        files = write(room)
        for name in DESIGNS:
            for k, turns in TURNS.items():
                found = [[stages(it, k, files[name], 1)["cuts"][1] for it in programs] for _ in range(turns)]
                row = [name, str(k), *(f"{min(it) / 1000:.2f}" for it in zip(*found))]
                row.append(f"{abc_time(abc, k, files[name][0], room)[0] / 1000:.1f}" if abc else "")
                print("| " + " | ".join(row) + " |", flush=True)


def main() -> int:
    parser = shared.words(__doc__)
    kinds = parser.add_subparsers(dest="word", metavar="write|time|cuts|shapes", required=True, help="what is done")
    kinds.add_parser("write").add_argument("room", metavar="ROOM", help="the folder of the netlists")
    timed = shared.saving(kinds.add_parser("time"))
    timed.add_argument("program", metavar="PROGRAM", nargs="?", type=shared.path_of, default=shared.MEASURED, help="a built bench_mapping")
    timed.add_argument("k", metavar="K", nargs="?", type=int, choices=range(2, 7), default=4, help="the inputs of a LUT (default: 4)")
    kinds.add_parser("cuts").add_argument("programs", metavar="PROGRAM", nargs="+", type=shared.path_of, help="a built bench_mapping")
    shapes.add_words(shared.saving(kinds.add_parser("shapes")))
    given = parser.parse_args()
    if given.word == "write":
        os.makedirs(given.room, exist_ok=True)
        write(given.room)
        shapes.write_all(given.room)
    elif given.word == "time":
        show(given.program, given.k, given.json)
    elif given.word == "cuts":
        compare(given.programs)
    else:
        return shapes.show(given)
    return 0


if __name__ == "__main__":
    sys.exit(main())
