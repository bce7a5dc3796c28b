#!/usr/bin/env python3
"""Compares what the companion writes and prints with what it wrote and printed before a change.

    python3 tools/dev/golden.py write FILE            builds a few small designs, and writes all files and outputs to FILE
    python3 tools/dev/golden.py compare FILE          the same, and compares with what is in FILE
    python3 tools/dev/golden.py compare FILE device   the same of the designs with these names

Each design is built twice, the second time over its own files, and other subcommands read what was built. Files, outputs and statuses are
compared; times are left out, and lines on stderr, which come from several threads, are sorted. The program is that of the variable TLUT, or
the tree's. FILE is for one machine: versions of other programs are in it. The exit status is 1 if anything differs.
"""

from __future__ import annotations

import difflib
import json
import os
import re
import shutil
import subprocess
import sys
import tempfile
from dataclasses import dataclass

TOP = os.path.dirname(os.path.dirname(os.path.dirname(os.path.realpath(__file__))))
EXAMPLES = ("fir", "matcher", "vote")
FIR = "build fir.v --top fir --param c0=5 --param c1=3 --param c2=6 -j 2 --out made"
# The calls for each design, in a folder with the files of the examples. A call may read a file on standard input.
DESIGNS = {
    "script": (
        f"{FIR} --k 4 --quick --script ten.scr",
        f"{FIR} --k 4 --quick --script ten.scr",
        "show made/fir.blif made/fir.par --hex --states < made/fir_run.txt",
        "show made/fir.blif made/fir.par ten.scr < made/fir.par",
        "wave made/fir.blif made/fir.par ten.scr < made/fir_run.txt",
        "hdl made/fir_t.blif made/fir.ppc --port random --word 4",
        "hdl made/fir_t.blif made/fir.ppc --script ten.scr --simulate --device xilinx7 < made/fir_run.txt",
        "hdl made/fir_t.blif made/fir.ppc --script ten.scr --out made < made/fir_run.txt",
        "hdl made/fir_t.blif made/fir.ppc --simulate",
        "stream made/fir.ppc c1=7",
        "draw made/fir_t.blif made/fir.ppc --cone y[3]",
        "check made/fir.blif made/fir_t.blif --pack made/fir.ppc",
        "check made/fir.blif made/fir_spec.blif --params made/fir.par",
        "check made/fir.blif --params made/fir.par --script ten.scr < made/fir_run.txt",
        "report made/fir_t.blif made/fir.ppc --json",
    ),
    "netlist": (
        "build matcher.blif matcher.par --quick --k 4 --out made",
        "build matcher.blif matcher.par --quick --k 4 --rule tlut --for bits --script patterns.scr --states --out made",
        "build matcher.blif matcher.par --abc dc2 --out made",
        "compare matcher.blif matcher.par --k 3 --k 4",
        "report made/matcher_t.blif made/matcher.ppc",
        "explain L4",
    ),
    "aiger": ("build vote.aag vote.par --quick --k 3 --out made --script votes.scr", "build vote.aag vote.par --quick --device xilinx7 --out more"),
    "device": (f"{FIR} --device xilinx7 --quick --script ten.scr", f"{FIR} --device xilinx7 --quick --script ten.scr", f"{FIR} --device ice40 --quick"),
    "measured": (
        f"{FIR} --for luts --only raw --only map --only yosys",
        f"{FIR} --only map --k 4 --script changing.scr",
        f"{FIR} --device xilinx7 --only map",
        "prepare matcher.blif matcher.par --k 4 --only raw --only dc2 --beside",
        "prepare matcher.blif matcher.par --device xilinx7 --only raw",
        "verilog fir.v --top fir --param c0=5 --only map --out alone",
        "verilog fir.v --top fir --param c0=5 --quick --out alone",
        "verilog fir.v --top fir --recipe",
    ),
}
# Times, on stderr, on stdout and in files; and the traceback's file.
TIMES = (
    (re.compile(r": \d+\.\d s(?=$|flow)", re.MULTILINE), ": TIME s"),
    (re.compile(r'("seconds": )[\d.e+-]+'), r"\1TIME"),
    (re.compile(r"(<td>)\d+\.\d(</td><td>(?:&#9733;)?</td>)"), r"\1TIME\2"),
    (re.compile(r" +\d+\.\d( {2,}|$)", re.MULTILINE), r" TIME\1"),
    (re.compile(r"flow-fault-\w+"), "flow-fault"),
)


@dataclass(frozen=True)
class Difference:
    """What differs: a call's output or a file, and its lines before and after."""

    what: str
    before: str
    after: str

    def lines(self) -> list[str]:
        """The lines that differ, cut where they are long."""
        found = difflib.unified_diff(self.before.splitlines(), self.after.splitlines(), "before", "after", lineterm="", n=0)
        return [self.what, *(f"    {line[:200]}" for line in list(found)[2:22])]


def without_times(text: str) -> str:
    """A text without its times."""
    for pattern, instead in TIMES:
        text = pattern.sub(instead, text)
    return text


def outcome(call: str, folder: str) -> str:
    """The status and the outputs of a call of the companion."""
    words, _, given = call.partition(" < ")
    path = f"{folder}/{given}"
    with open(path if given and os.path.exists(path) else os.devnull, "rb") as file:
        ran = subprocess.run(
            [sys.executable, "-m", "tlutflow", *words.split()], stdin=file, capture_output=True, cwd=folder, env={**os.environ, "PYTHONPATH": TOP}, check=False
        )
    told, said = (it.decode(errors="surrogateescape") for it in (ran.stdout, ran.stderr))
    lines = [it.strip() for it in re.split(r"\n|(?=flow \w+: )", without_times(said))]
    said = "\n".join(sorted(it for it in lines if it and not it.endswith("so far")))
    return f"status {ran.returncode}\n{without_times(told)}\nstderr:\n{said}\n"


def files_of(folder: str) -> dict[str, str]:
    """The files below a folder, by their names."""
    found = {}
    for root, _, names in os.walk(folder):
        for name in names:
            path = os.path.join(root, name)
            with open(path, "rb") as file:
                found[os.path.relpath(path, folder)] = without_times(file.read().decode(errors="surrogateescape"))
    return found


def made(calls: tuple[str, ...], folder: str) -> dict[str, str]:
    """What some calls print, and the files that are there after each of them."""
    os.makedirs(folder)
    for name in EXAMPLES:
        shutil.copytree(f"{TOP}/examples/{name}", folder, dirs_exist_ok=True)
    found = {}
    for number, call in enumerate(calls, 1):
        found[f"{number} {call}"] = outcome(call, folder)
        found.update({f"{name} after call {number}": text for name, text in files_of(folder).items()})
    return found


def in_order(name: str, text: str) -> str:
    """A file's text; the record of a build by the names of its steps, since these end in any order."""
    return json.dumps(json.loads(text), indent=1, sort_keys=True) if "build.json" in name and text else text


def differences(before: dict[str, str], after: dict[str, str]) -> list[Difference]:
    """What isn't the same."""
    pairs = [Difference(name, *(in_order(name, it.get(name, "")) for it in (before, after))) for name in sorted({*before, *after})]
    return [it for it in pairs if it.before != it.after]


def main() -> int:
    words = sys.argv[1:]
    if words[:1] not in (["write"], ["compare"]) or len(words) < 2 or set(words[2:]) - set(DESIGNS):
        print(__doc__)
        return 0 if words[:1] == ["--help"] else 2
    os.environ.setdefault("TLUT", f"{TOP}/tlut")
    names = words[2:] or list(DESIGNS)
    with tempfile.TemporaryDirectory(prefix="golden-") as room:
        found = {name: made(DESIGNS[name], f"{room}/{name}") for name in names}
    if words[0] == "write":
        with open(words[1], "w", encoding="utf-8", errors="surrogateescape") as file:
            json.dump(found, file, indent=1)
        return 0
    with open(words[1], encoding="utf-8") as file:
        before = json.load(file)
    return report({name: differences(before.get(name, {}), found[name]) for name in names}, {name: len(found[name]) for name in names})


def report(found: dict[str, list[Difference]], many: dict[str, int]) -> int:
    """Prints what differs, and returns the exit status."""
    for name, those in found.items():
        print("\n".join([f"{name}: {many[name]} outputs and files, {len(those)} differ", *(line for it in those for line in it.lines())]))
    return 1 if any(found.values()) else 0


if __name__ == "__main__":
    sys.exit(main())
