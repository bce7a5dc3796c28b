#!/usr/bin/env python3
"""Builds the circuits of this folder, and compares each cycle of their runs with the source in Icarus Verilog.

    python3 examples/aes/check.py [--top aes_iterated] [--k 6] [--keep FOLDER] [-j N]

Outside the gate, since Yosys needs minutes for a circuit. It needs Yosys, ABC and Icarus Verilog, and a built tlut (or the variable TLUT).
For each top and K it runs `flow build --only raw --rule compact` with the top's script, which changes the key between two blocks. The outputs
of the run must be those of the source in each cycle, and the standards' results must be among them.
"""

from __future__ import annotations

import argparse
import os
import sys
import tempfile

HERE = os.path.dirname(os.path.realpath(__file__))
TOP = os.path.dirname(os.path.dirname(os.path.dirname(os.path.dirname(HERE))))
sys.path.insert(0, TOP)

from tlutflow import tools
from tlutflow.tests.test_aes import cycles, results_of
from tlutflow.text import read_text

SCRIPTS = {"aes": "blocks.scr", "aes_iterated": "one_block.scr"}


def outputs_of(run: str, ports: int) -> list[str]:
    """The first outputs of each cycle of a run, the lowest digit last."""
    return [line.split()[1][:ports][::-1] for line in run.splitlines() if line.startswith("cycle ")]


def differences(top: str, k: int, folder: str, jobs: int) -> int:
    """Builds a top, and returns how many cycles of its run aren't the source's."""
    script = f"{HERE}/{SCRIPTS[top]}"
    chosen = ["--top", top, "--only", "raw", "--rule", "compact", "--k", str(k), "-j", str(jobs)]
    ran = tools.run([f"{TOP}/flow", "build", f"{HERE}/aes.v", *chosen, "--script", script, "--out", folder])
    if ran.returncode:
        sys.exit(ran.stderr)
    given, shown = cycles(top, SCRIPTS[top], folder)
    made = outputs_of(read_text(f"{folder}/{top}_run.txt"), 128)
    wrong = sum(int(left, 2) != right for left, right in zip(made, shown)) + abs(len(made) - len(shown))
    found = results_of(given, shown)
    print(f"{top}, K {k}: {ran.stdout.splitlines()[0]}")
    print(f"{top}, K {k}: {len(made)} cycles, {wrong} differ; {sum(left == right for left, right in found)} of {len(found)} results are the standards'")
    return wrong + sum(left != right for left, right in found)


def main() -> int:
    parser = argparse.ArgumentParser(description=__doc__, formatter_class=argparse.RawDescriptionHelpFormatter)
    parser.add_argument("--top", choices=list(SCRIPTS), action="append", default=[], help="build this one alone (repeat it)")
    parser.add_argument("--k", type=int, choices=range(2, 7), action="append", default=[], help="the inputs of a LUT (repeat it; default: 6)")
    parser.add_argument("--keep", metavar="FOLDER", help="where what is made stays")
    parser.add_argument("-j", dest="jobs", metavar="N", type=int, default=2, help="how many processes a build may use (default: 2)")
    given = parser.parse_args()
    with tempfile.TemporaryDirectory(prefix="aes-") as room:
        wrong = [differences(top, k, f"{given.keep or room}/{top}_{k}", given.jobs) for top in given.top or SCRIPTS for k in given.k or [6]]
    return 1 if any(wrong) else 0


if __name__ == "__main__":
    sys.exit(main())
