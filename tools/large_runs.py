#!/usr/bin/env python3
"""Runs the built program on large random netlists, and compares each cycle that it prints with a simulation of their covers.

    python3 tools/large_runs.py [PROGRAM]

Outside the gate. Call `./tlut` once before, to build the program. Each line has the time of a run and the header that the program
printed, which isn't compared. The last line is `N passed, M failed`, and the exit status is 1 if M isn't 0.
"""

from __future__ import annotations

import random
import subprocess
import sys
import tempfile
import time
from typing import Callable

import shared

PARAMS = [f"p{i}" for i in range(8)]
INPUTS = [f"x{i}" for i in range(56)]
LATCHES = [f"q{i}" for i in range(16)]

# The rows of a cover of two inputs, and its value.
ROWS: dict[str, Callable[[int, int], int]] = {
    "11 1": lambda a, b: a & b,
    "10 1": lambda a, b: a & ~b & 1,
    "01 1": lambda a, b: ~a & b & 1,
    "00 0": lambda a, b: a | b,
    "10 1\n01 1": lambda a, b: a ^ b,
}
# The values of nets, by their names.
Values = dict[str, int]


class Netlist:
    """Covers of two earlier nets each, one of them among the last 200. The last nets are the outputs, and what latches keep."""

    def __init__(self, count: int, chance: random.Random) -> None:
        nets = PARAMS + INPUTS + LATCHES
        self.covers = []
        for i in range(count):
            self.covers.append((chance.choice(nets[-200:]), chance.choice(nets), f"n{i}", chance.choice([*ROWS])))
            nets.append(f"n{i}")
        self.outputs = nets[-64:]
        self.latches = dict(zip(LATCHES, nets[-80:-64]))

    def text(self) -> str:
        """The netlist in BLIF."""
        lines = [".model covers", ".inputs " + " ".join(PARAMS + INPUTS), ".outputs " + " ".join(self.outputs)]
        lines += [f".latch {d} {q} 0" for q, d in self.latches.items()]
        for a, b, y, row in self.covers:
            lines += [f".names {a} {b} {y}", row]
        return "\n".join([*lines, ".end", ""])

    def line(self, params: Values, inputs: Values, states: Values) -> tuple[str, Values]:
        """The line of a cycle under these values, and the latches' states after it."""
        values = {**params, **inputs, **states}
        for a, b, y, row in self.covers:
            values[y] = ROWS[row](values[a], values[b])
        after = {q: values[d] for q, d in self.latches.items()}
        return f"cycle {bits(values, self.outputs)} {bits(after, LATCHES)}\n", after


def bits(values: Values, names: list[str]) -> str:
    return "".join(str(values[name]) for name in names)


def drawn(names: list[str], chance: random.Random) -> Values:
    return {name: chance.randrange(2) for name in names}


def job(count: int, cycles: int) -> tuple[str, str, str, str]:
    """The texts of a netlist, a list and a script, and the lines that the script's cycles must print."""
    chance = random.Random(count)
    netlist, params, states = Netlist(count, chance), drawn(PARAMS, chance), dict.fromkeys(LATCHES, 0)
    script, lines = "", ""
    for _ in range(cycles):
        inputs = drawn(INPUTS, chance)
        line, states = netlist.line(params, inputs, states)
        script += f"cycle {bits(inputs, INPUTS)}\n"
        lines += line
    return netlist.text(), "".join(f"{name} {bit}\n" for name, bit in params.items()), script, lines


def run(program: str, count: int, k: int) -> bool:
    *texts, wanted = job(count, 20)
    with tempfile.TemporaryDirectory() as room:
        for file, text in zip(("n.blif", "p.par", "s.scr"), texts):
            with open(f"{room}/{file}", "w", encoding="ascii") as it:
                it.write(text)
        words = [program, "run", str(k), "n.blif", "p.par", "s.scr", "0", "0"]
        begin = time.monotonic()
        ran = subprocess.run(words, cwd=room, capture_output=True, text=True, check=False)
        took = time.monotonic() - begin
    header, _, lines = ran.stdout.partition("\n")
    well = (ran.returncode, lines) == (0, wanted)
    print(f"{'ok' if well else 'FAILED'} {count} covers, K {k}: {took:.2f} s {header or ran.stderr.strip()}", flush=True)
    return well


def main() -> int:
    program = shared.one_program(__doc__)
    results = [run(program, count, k) for count, k in ((1000, 2), (1000, 4), (1000, 6), (20000, 2), (20000, 4), (80000, 4))]
    return shared.summary(sum(results), len(results) - sum(results))


if __name__ == "__main__":
    sys.exit(main())
