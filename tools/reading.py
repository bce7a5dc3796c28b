#!/usr/bin/env python3
"""Times how netlists of 40 MB are read, with the memory that this takes, and ABC for comparison.

    python3 tools/reading.py [PROGRAM]..

Outside the gate. Call `./tlut` once before, to build the program. Several programs, for example before and after a change, are run in turn.

Both netlists have covers of two inputs, each drawn from the 200 names before it. One has 1,100,000 of them with short names, of which its
output reaches about a tenth. The other has 100,000 with names of about 120 bytes, and all are reached. `tlut graph` reads and flattens all
of a netlist and writes the outputs' graph; ABC reads it, and `strash` creates its graph. Each line has the CPU time, the least of some
runs, and the greatest resident memory.
"""

from __future__ import annotations

import os
import random
import sys
import tempfile
from typing import Sequence

TOP = os.path.dirname(os.path.dirname(os.path.abspath(__file__)))
sys.path.insert(0, TOP)

import measured
import shared
from tlutflow import tools

ABC = tools.find(tools.ABC)
INPUTS = 64
RUNS = 5
# The title, what the names of the covers begin with, how many there are, and which ones are outputs.
NETLISTS: list[tuple[str, str, int, Sequence[int]]] = [
    ("short names", "n", 1_100_000, [110_000]),
    ("long names", f"top.core0.stage.{'x' * 100}.n", 100_000, range(99_936, 100_000)),
]


def netlist(stem: str, count: int, outputs: Sequence[int]) -> str:
    """Returns a netlist, the same at each call."""
    draw = random.Random(1)
    names = [f"i{i}" for i in range(INPUTS)]
    covers = []
    for place in range(count):
        first, second = draw.sample(names[-200:], 2)
        covers.append(f".names {first} {second} {stem}{place}\n{draw.choice(('11', '10', '01', '00'))} 1\n")
        names.append(f"{stem}{place}")
    ports = f".inputs {' '.join(names[:INPUTS])}\n.outputs {' '.join(f'{stem}{it}' for it in outputs)}\n"
    return f".model made\n{ports}{''.join(covers)}.end\n"


def main() -> None:
    programs = shared.some_programs(__doc__, [shared.PROGRAM])
    commands = [(it, [it, "graph", "n.blif", "none.par", "n.aag"]) for it in programs]
    if ABC:
        commands.append(("ABC", [ABC, "-q", "read_blif n.blif; strash; write_aiger n.aig"]))
    with tempfile.TemporaryDirectory() as folder:
        for title, stem, count, outputs in NETLISTS:
            text = netlist(stem, count, outputs)
            for name, content in ("n.blif", text), ("none.par", ""):
                with open(f"{folder}/{name}", "w", encoding="ascii") as file:
                    file.write(content)
            print(f"{title}, {len(text) / 1e6:.1f} MB")
            found = [[measured.run(folder, words) for _, words in commands] for _ in range(RUNS)]
            for (name, _), runs in zip(commands, zip(*found)):
                if any(it.status for it in runs):
                    sys.exit(f"{name} failed")
                print(f"  {name}: {min(it.processor for it in runs):.2f} s, {max(it.megabytes for it in runs)} MB", flush=True)


if __name__ == "__main__":
    main()
