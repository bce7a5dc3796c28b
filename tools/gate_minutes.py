#!/usr/bin/env python3
"""Measures the CPU-minutes of the merge gate by crate and kind, and those of a crate's proof by function.

    python3 tools/gate_minutes.py                        runs `rt ci` and measures it
    python3 tools/gate_minutes.py --anew                 the same from nothing; any further arguments of `rt ci` too
    python3 tools/gate_minutes.py --pid N                measures a run that has begun: N is the number of its process
    python3 tools/gate_minutes.py --write --anew         also writes the minutes of each proof into crate_work.txt, for the estimates of ./tlut
    python3 tools/gate_minutes.py --functions CRATE ..   proves these crates from nothing, one function after another, and prints the
                                                         CPU-seconds of the twenty dearest functions. The crates below must be built

It looks at the prover's processes below the run twice a second, and adds up what each had used when it was last seen: the proofs of a
crate, those of its tests, its must-fail edits (with the check that they begin from), and what links and runs. So up to half a second of
each process is missed. At the end, and after a SIGINT, it prints a table; the exit status is that of `rt ci`.

The prover prints a line as each function is checked. What it used between two lines counts for the function of the second one, so a
file of lemmas counts for the first function that cites it, and the start, which reads the crates below, for none. Of a small crate it
prints no such lines, and all counts for none.
"""

from __future__ import annotations

import os
import re
import signal
import subprocess
import sys
import tempfile
import time
from typing import Callable, Optional

import shared

TOP = os.path.dirname(os.path.dirname(os.path.abspath(__file__)))
KINDS = ("proof", "tests", "edits")
TICKS = os.sysconf("SC_CLK_TCK")
DEAREST = 20
# By the number of a process and when it began: its parent, its CPU seconds, its arguments and its folder.
Processes = dict[tuple[int, str], tuple[int, float, list[str], str]]
# A crate and a kind of work.
Kind = tuple[str, str]


def processes() -> Processes:
    """The parent, the CPU seconds and the arguments of each process, by its number and when it began."""
    found = {}
    for name in os.listdir("/proc"):
        if not name.isdigit():
            continue
        try:
            with open(f"/proc/{name}/stat", encoding="utf-8", errors="replace") as file:
                stat = file.read().rpartition(")")[2].split()
            with open(f"/proc/{name}/cmdline", "rb") as file:
                words = file.read().decode("utf-8", "replace").split("\0")
            folder = os.readlink(f"/proc/{name}/cwd")
        except OSError:
            continue
        found[int(name), stat[19]] = (int(stat[1]), (int(stat[11]) + int(stat[12])) / TICKS, words, folder)
    return found


def below(found: Processes, root: int) -> Processes:
    """The processes that descend from one."""
    parents = {number: parent for (number, _), (parent, *_) in found.items()}

    def descends(number: int) -> bool:
        for _ in range(64):
            if number == root:
                return True
            if number not in parents:
                return False
            number = parents[number]
        return False

    return {key: value for key, value in found.items() if key[0] != root and descends(key[0])}


def kind_of(words: list[str], folder: str) -> Optional[Kind]:
    """The crate and the kind of work, or none for what is not a check."""
    if "--crate-name" not in words:
        return None
    name = words[words.index("--crate-name") + 1]
    if "rt-edits-" in folder or any("rt-edits-" in word for word in words) or not folder.endswith(f"/crates/{name}"):
        return name, "edits"
    return name, "tests" if "--test" in words else "proof"


def watch(root: int, is_running: Callable[[], bool]) -> tuple[dict[Kind, float], float, float]:
    """The seconds of each crate and kind until the run has ended."""
    seen: dict[tuple[int, str], float] = {}
    kinds: dict[tuple[int, str], Optional[Kind]] = {}
    started = time.monotonic()
    try:
        while is_running():
            for key, (_, seconds, words, folder) in below(processes(), root).items():
                kinds.setdefault(key, kind_of(words, folder) or kinds.get(key))
                seen[key] = max(seconds, seen.get(key, 0))
            time.sleep(0.5)
    except KeyboardInterrupt:
        pass
    totals: dict[Kind, float] = {}
    other = 0.0
    for key, seconds in seen.items():
        kind = kinds[key]
        if kind:
            totals[kind] = totals.get(kind, 0) + seconds
        else:
            other += seconds
    return totals, other, time.monotonic() - started


def show(totals: dict[Kind, float], other: float, wall: float) -> None:
    """Prints the table, the dearest crate first."""
    crates = sorted({name for name, _ in totals}, key=lambda name: -sum(totals.get((name, kind), 0) for kind in KINDS))
    print("| Crate | Proof | Tests | Edits | Together |\n|---|---|---|---|---|")
    for name in crates + [None]:
        parts = [sum(v for (n, k), v in totals.items() if k == kind and name in (n, None)) / 60 for kind in KINDS]
        print(f"| {name or 'all'} | " + " | ".join(f"{part:.1f}" for part in parts + [sum(parts)]) + " |")
    print(f"other work: {other / 60:.1f} processor minutes; the run took {wall / 60:.0f} minutes")


def write(totals: dict[Kind, float]) -> None:
    """Replaces the minutes in crate_work.txt by those of this run, for the crates that it proved."""
    path = f"{TOP}/tools/crate_work.txt"
    with open(path, encoding="utf-8") as file:
        lines = file.readlines()
    for place, line in enumerate(lines):
        name, _, words = line.partition(" ")
        seconds = totals.get((name, "proof"), 0)
        if seconds:
            lines[place] = f"{name} {max(0.1, seconds / 60):.1f} {words.partition(' ')[2]}"
    with open(path, "w", encoding="utf-8") as file:
        file.writelines(lines)


def crates_below() -> dict[str, list[str]]:
    """The crates that crates.txt names below each of this repository's, by its name."""
    with open(f"{TOP}/crates.txt", encoding="utf-8") as file:
        lines = [line.split(":") for line in file if ":" in line and not line.startswith("#")]
    return {name.split()[0]: names.split() for name, names in lines}


def all_below(crates: dict[str, list[str]], name: str) -> list[str]:
    found = []
    for below in crates.get(name, []):
        found += [it for it in [*all_below(crates, below), below] if it not in found]
    return found


def check_words(kit: str, crates: dict[str, list[str]], name: str, kept: str) -> list[str]:
    """The prover's call that checks a crate, one function after another, over the built crates below it."""
    root = "main" if os.path.isfile(f"{TOP}/crates/{name}/src/main.rt") else "lib"
    words = [f"{kit}/bin/rattle", "check", "--crate-name", name, f"src/{root}.rt", "--extern", f"std={kit}/rlibs/std.rlib"]
    for below in all_below(crates, name):
        folder = f"{TOP}/crates/{below}/out/rlib" if below in crates else f"{kit}/rlibs"
        words += ["--extern", f"{below}={folder}/{below}.rlib", "-L", f"dependency={folder}"]
    words += ["-L", f"dependency={kit}/rlibs", "--antt-project", f"{kit}/rattle/logic/antt-project.json"]
    return [*words, "--logic-built", f"{kit}/logic_built", "--incremental", kept, "--jobs", "1"]


def seconds_of(pid: int) -> float:
    """The processor seconds of a process and of those that it started and that have ended."""
    with open(f"/proc/{pid}/stat", encoding="utf-8", errors="replace") as file:
        return sum(map(int, file.read().rpartition(")")[2].split()[11:15])) / TICKS


def functions(name: str) -> bool:
    """Proves a crate, and prints its dearest functions."""
    kit = os.path.dirname(subprocess.run(["rt", "doc"], capture_output=True, text=True, check=True).stdout.strip())
    took: dict[str, float] = {}
    last, printed = 0.0, ""
    with tempfile.TemporaryDirectory() as kept:
        words = check_words(kit, crates_below(), name, kept)
        with subprocess.Popen(words, cwd=f"{TOP}/crates/{name}", stdout=subprocess.PIPE, stderr=subprocess.STDOUT, text=True) as run:
            for line in run.stdout or ():
                now, printed = seconds_of(run.pid), line.strip()
                found = re.match(r"checked (\S+), \d+ of \d+", line)
                took[found[1] if found else ""] = took.get(found[1] if found else "", 0) + now - last
                last = now
    rest = took.pop("", 0)
    print(f"{name}: {last:.0f} processor seconds, of which {rest:.0f} for its start and its verdict: {printed}")
    for function in sorted(took, key=lambda name: took[name], reverse=True)[:DEAREST]:
        print(f"{took[function]:8.1f} {function}")
    return printed.startswith("logic=proved")


def main() -> int:
    signal.signal(signal.SIGINT, signal.default_int_handler)
    parser = shared.words(__doc__)
    parser.add_argument("--pid", metavar="N", type=int, help="the process of a run that has begun")
    parser.add_argument("--write", action="store_true", help="write the minutes of each proof into crate_work.txt")
    given, words = parser.parse_known_args()
    if given.pid is not None:
        root = given.pid
        figures = watch(root, lambda: os.path.exists(f"/proc/{root}"))
        show(*figures)
        if given.write:
            write(figures[0])
        return 0
    if words[:1] == ["--functions"]:
        return 0 if all([functions(name) for name in words[1:]]) else 1
    with subprocess.Popen(["rt", "ci", *words]) as run:
        figures = watch(run.pid, lambda: run.poll() is None)
        show(*figures)
        if given.write:
            write(figures[0])
        return run.wait()


if __name__ == "__main__":
    sys.exit(main())
