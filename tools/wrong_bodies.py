#!/usr/bin/env python3
"""Tries the wrong bodies that the gate doesn't: crates/NAME/wrong-bodies/*.edit, each of which the crate's contract must refuse.

    python3 tools/wrong_bodies.py              those of all crates
    python3 tools/wrong_bodies.py NAME ..      those of some crates

It tries them in a copy, with the gate over these crates. So what a gate has proved on this machine isn't proved again, and what was tried
isn't tried again while its crate is unchanged. Each one that isn't refused is reported. The last line is `N refused, M not refused`; the
exit status is 0 if M is 0.
"""

from __future__ import annotations

import os
import re
import shutil
import subprocess
import sys
import tempfile

import shared
from shared import TOP

TIER = "wrong-bodies"


def copy_into(room: str, names: list[str]) -> None:
    """Copies what a check reads, with the wrong bodies of these crates instead of the gate's edits."""
    for file in ("HANDLES", "crates.txt"):
        shutil.copy(f"{TOP}/{file}", room)
    for name in os.listdir(f"{TOP}/crates"):
        source, target = f"{TOP}/crates/{name}", f"{room}/crates/{name}"
        shutil.copytree(source, target, ignore=shutil.ignore_patterns("out", "must-fail", TIER))
        if name in names:
            shutil.copytree(f"{source}/{TIER}", f"{target}/must-fail")


def crates_with_wrong_bodies() -> list[str]:
    """The crates that have wrong bodies of this tier, by name."""
    return sorted(name for name in os.listdir(f"{TOP}/crates") if os.path.isdir(f"{TOP}/crates/{name}/{TIER}"))


def run(room: str, names: list[str]) -> list[str]:
    """Runs the gate over the crates, and returns its lines on each wrong body."""
    told = []
    with subprocess.Popen(
        ["rt", "ci", *names], cwd=room, stdin=subprocess.DEVNULL, stdout=subprocess.PIPE, stderr=subprocess.STDOUT, text=True
    ) as gate:
        for line in gate.stdout or ():
            if re.match(r"(rt: )?must-fail \w+/", line):
                told.append(line.rstrip("\n"))
                if ": refused" not in line:
                    print(told[-1], flush=True)
    return told


def main() -> int:
    every = crates_with_wrong_bodies()
    parser = shared.words(__doc__)
    parser.add_argument("names", metavar="NAME", nargs="*", help="a crate (default: all that have wrong bodies)")
    names = parser.parse_args().names or every
    unknown = [name for name in names if name not in every]
    if unknown:
        print(f"{unknown[0]} has no wrong bodies of this tier", file=sys.stderr)
        return 2
    count = sum(name.endswith(".edit") for crate in names for name in os.listdir(f"{TOP}/crates/{crate}/{TIER}"))
    with tempfile.TemporaryDirectory(prefix="wrong-bodies-") as room:
        copy_into(room, names)
        refused = sum(": refused" in line for line in run(room, names))
    print(f"{refused} refused, {count - refused} not refused")
    return 0 if refused == count else 1


if __name__ == "__main__":
    sys.exit(main())
