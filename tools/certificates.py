#!/usr/bin/env python3
"""Proves the least depth of each example at each K, and audits the certificate; then spoils it, and audits that.

    python3 tools/certificates.py [PROGRAM]

Call `./tlut` once before, to build the program. Each certificate must be accepted with the depth that `prove` printed. It must be
refused with one of its paths dropped, with a node of a path changed, and with its depth raised. The last line is `N passed, M failed`.
"""

from __future__ import annotations

import glob
import os
import subprocess
import sys
import tempfile
from typing import Iterator

import shared
from shared import TOP

# The K, the netlist and the list of parameters of a call.
Words = tuple[str, ...]


class Program:
    """The program that is tried."""

    def __init__(self, path: str) -> None:
        self.path = path

    def call(self, *words: str) -> tuple[int, str]:
        """The status of a call, and what it printed."""
        ran = subprocess.run([self.path, *words], capture_output=True, text=True, check=False)
        return ran.returncode, ran.stdout.strip()


def without_a_path(lines: list[str]) -> list[str]:
    """The lines without the first path."""
    at = next(i for i, line in enumerate(lines) if line.startswith("path"))
    return lines[:at] + lines[at + 1 :]


def with_another_node(lines: list[str]) -> list[str]:
    """The lines, with the first path beginning at the constant."""
    at = next(i for i, line in enumerate(lines) if line.startswith("path"))
    words = lines[at].split()
    return lines[:at] + [" ".join(["path", "0", *words[2:]])] + lines[at + 1 :]


def with_more_depth(lines: list[str]) -> list[str]:
    """The lines, with a depth that is one more."""
    return [f"depth {int(lines[0].split()[1]) + 1}"] + lines[1:]


def is_refused(program: Program, words: Words, lines: list[str], name: str) -> bool:
    """Whether a certificate of these lines is refused."""
    with open(name, "w", encoding="utf-8") as file:
        file.write("\n".join(lines) + "\n")
    return program.call("audit", *words, name)[0] == 3


def outcomes(program: Program, words: Words, name: str) -> Iterator[tuple[str, bool]]:
    """Whether each thing that is asked of one netlist, list and K holds, with its name."""
    status, printed = program.call("prove", *words, name)
    yield "prove", status == 0 and printed.startswith("depth ")
    if status != 0:
        return
    depth = printed.split()[1]
    yield "audit", program.call("audit", *words, name) == (0, f"depth at least {depth}")
    with open(name, encoding="utf-8") as file:
        lines = file.read().splitlines()
    yield "depth raised", is_refused(program, words, with_more_depth(lines), name)
    if len(lines) > 1:
        yield "path dropped", is_refused(program, words, without_a_path(lines), name)
        yield "node changed", is_refused(program, words, with_another_node(lines), name)


def main() -> int:
    program, passed, failed = Program(shared.one_program(__doc__)), 0, 0
    with tempfile.TemporaryDirectory() as folder:
        for netlist in sorted(glob.glob(f"{TOP}/examples/*/*.blif")):
            for params in sorted(glob.glob(f"{os.path.dirname(netlist)}/*.par")):
                for k in "23456":
                    for what, holds in outcomes(program, (k, netlist, params), f"{folder}/cert"):
                        passed, failed = passed + holds, failed + (not holds)
                        if not holds:
                            print(f"{os.path.relpath(netlist, TOP)} {os.path.basename(params)} K {k}: {what}")
    return shared.summary(passed, failed)


if __name__ == "__main__":
    sys.exit(main())
