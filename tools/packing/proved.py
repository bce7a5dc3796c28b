"""PROVED.txt: what a release was made from, and how anyone can check its programs."""

from __future__ import annotations

import os
import re
import subprocess
from typing import NamedTuple

from packing import tree
from packing.manifest import Refused, sum_of
from shared import TOP


class Facts(NamedTuple):
    """What a release is made from."""

    version: str
    commit: str
    # the time of the commit, in seconds
    when: int
    author: str
    kit: str
    gate: str


TEXT = """TLUT Flow {version}

Commit:     {commit}
Toolchain:  {kit}
Gate:       {gate}

The programs and the library in this package are compiled from the sources of this commit, each function of which the toolchain proved
first: a proof that fails is a compile error. README.md ("What is proved") says what that means and what it rests on. The companion
tlut-flow, which is in Python, is tested and not proved; so is what the library has in C: its calls of malloc.

The checksums (SHA-256) of what was compiled, {below}:

{sums}

To check the files that you have:

  {check}

To check that they come from this commit, build them again: in a clone at the commit, with the same toolchain and C compiler on the PATH,

  ./tlut release FOLDER

proves everything that wasn't proved on that machine, and creates the same packages, byte for byte. The programs don't depend on the C
compiler, the library does: {compilers}.
"""


def said(*words: str) -> str:
    """What a program prints, without the last line break. Refused if it fails."""
    try:
        return subprocess.run(words, cwd=TOP, capture_output=True, text=True, check=True).stdout.rstrip("\n")
    except (OSError, subprocess.CalledProcessError) as error:
        raise Refused(f"{' '.join(words)} fails, which a release needs") from error


def gate_line(commit: str) -> str:
    """The last line of the gate's `rt ci` on a commit, as .ci/run keeps it."""
    try:
        with open(f"{TOP}/out/gate.txt", encoding="utf-8") as file:
            of, line = file.read().splitlines()[:2]
    except (OSError, ValueError):
        of = line = ""
    return line if of == commit else "not run on this commit where this release was made"


def facts() -> Facts:
    """What a release of this checkout is made from. Refused if the checkout isn't its commit."""
    if said("git", "rev-parse", "--show-toplevel") != TOP:
        raise Refused("a release needs the commit, and this is no clone of the repository")
    if said("git", "status", "--porcelain"):
        raise Refused("a release is made from a commit, and `git status` shows changes or further files here")
    commit = said("git", "rev-parse", "HEAD")
    when, author = said("git", "log", "-1", "--format=%ct %an <%ae>").split(" ", 1)
    return Facts(tree.version(), commit, int(when), author, said("rt", "version"), gate_line(commit))


def compiled(root: str) -> list[str]:
    """The files below a folder that were compiled: programs and libraries."""
    found = []
    for at, _, names in os.walk(root):
        for name in names:
            path = f"{at}/{name}"
            if not os.path.islink(path) and re.search(r"/program/\w+$|\.a$|\.so\.\d+$", path):
                found.append(os.path.relpath(path, root))
    return sorted(found)


def write(root: str, target: str, given: Facts, below: str, compilers: str) -> None:
    """Writes PROVED.txt about what is below a folder, which a reader of the text knows by the name `below`."""
    sums = "\n".join(f"{sum_of(f'{root}/{path}')}  {path}" for path in compiled(root))
    name = os.path.relpath(target, root)
    check = f"cd {below} && grep -E '^[0-9a-f]{{64}}  ' {name} | sha256sum -c"
    place = "below the top of the archive" if below == "." else f"below {below}"
    tree.write(target, TEXT.format(**given._asdict(), sums=sums, check=check.replace("cd . && ", ""), below=place, compilers=compilers))
