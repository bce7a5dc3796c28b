"""What the programs are made from: their crates, the files of these crates, and one checksum of all of them.

    python3 tools/sources.py NAME

looks whether the built program NAME was made from the sources as they are, and ends with 0 if so, else with 1. `./tlut` calls it if a
file's status changed since the last such look. The contents are compared, and not the times: a copy of a built checkout is up to date.
"""

from __future__ import annotations

import hashlib
import os
import sys
import tempfile
from typing import Iterable, NamedTuple, Optional

import shared
from shared import TOP

PROGRAMS = ["tlut", "tlut_compact"]
# What a proof reads of a crate, and what a build without proofs reads.
PROVED_PARTS = ("src", "specs", "proofs")
UNPROVED_PARTS = ("src",)
# A file that was changed in the same tick of the kernel's clock as a look began counts as changed after it.
TICK = 10_000_000


class Record(NamedTuple):
    """What is kept beside a built program: the checksums of its sources and of itself, and the number of its inode at the last look."""

    sources: str
    program: str
    inode: str


def read_lines(root: str = TOP) -> tuple[dict[str, str], dict[str, list[str]]]:
    """Returns the line of crates.txt of each crate, and the crates of this repository that it uses."""
    with open(f"{root}/crates.txt", encoding="utf-8") as file:
        lines = {line.split(":")[0].split()[0]: line.strip() for line in file if ":" in line and not line.startswith("#")}
    return lines, {name: [it for it in line.split(":")[1].split() if it in lines] for name, line in lines.items()}


def below(uses: dict[str, list[str]], names: Iterable[str]) -> set[str]:
    """Returns these crates and those that they depend on."""
    found, left = set(), list(names)
    while left:
        it = left.pop()
        if it not in found:
            found.add(it)
            left += uses[it]
    return found


def walked(root: str, crates: Iterable[str], parts: tuple[str, ...]) -> tuple[list[str], list[str]]:
    """Returns the folders and the files of these parts of the crates, as paths below the root."""
    folders, files = [], []
    for top in (f"crates/{name}/{part}" for name in sorted(crates) for part in parts):
        for at, inner, names in os.walk(f"{root}/{top}"):
            inner.sort()
            folder = os.path.relpath(at, root)
            folders.append(folder)
            files += [f"{folder}/{name}" for name in sorted(names)]
    return folders, files


def sum_of_file(path: str) -> str:
    """The checksum of a file, or no text if it can't be read."""
    try:
        with open(path, "rb") as file:
            return hashlib.sha256(file.read()).hexdigest()
    except OSError:
        return ""


def sum_of(root: str, programs: Iterable[str], parts: tuple[str, ...] = PROVED_PARTS) -> str:
    """One checksum of what these programs are made from, in this tree: paths and contents, and the crates' lines of crates.txt."""
    lines, uses = read_lines(root)
    crates = below(uses, programs)
    total = hashlib.sha256("\n".join(lines[it] for it in sorted(crates)).encode())
    for path in ["HANDLES", *walked(root, crates, parts)[1]]:
        total.update(f"{path}\n{sum_of_file(f'{root}/{path}')}\n".encode())
    return total.hexdigest()


def out_of(name: str) -> str:
    """The folder of a built program, below the top."""
    return f"crates/{name}/out"


def read_record(name: str) -> Optional[Record]:
    """What is kept beside a built program, if it is."""
    try:
        with open(f"{TOP}/{out_of(name)}/built_from", encoding="utf-8") as file:
            return Record(*file.read().split())
    except (OSError, TypeError, ValueError):
        return None


def write_record(name: str, sources: str) -> None:
    """Keeps beside a built program what it was made from."""
    program = f"{TOP}/{out_of(name)}/{name}"
    put(f"{TOP}/{out_of(name)}/built_from", f"{sources} {sum_of_file(program)} {os.stat(program).st_ino}\n".encode())


def put(path: str, data: bytes, time: Optional[int] = None) -> None:
    """Replaces a file in one step. A time in nanoseconds becomes that of its last change."""
    new = f"{path}.{os.getpid()}"
    with open(new, "wb") as file:
        file.write(data)
    if time is not None:
        os.utime(new, ns=(time, time))
    os.replace(new, path)


def is_older(name: str, paths: list[str]) -> bool:
    """Whether a file changed after the program was built, by the times alone."""
    built = os.stat(f"{TOP}/{out_of(name)}/{name}").st_mtime_ns
    return any(os.lstat(f"{TOP}/{path}").st_mtime_ns > built for path in paths)


def tick(folder: str) -> int:
    """The time by the clock of a folder's file system, a little earlier."""
    with tempfile.TemporaryFile(dir=folder) as file:
        return os.fstat(file.fileno()).st_mtime_ns - TICK


def note(name: str, sources: str, read: list[str], begun: int) -> None:
    """Keeps what the program was made from, and lists what a look has read, for the next call."""
    write_record(name, sources)
    listed = "\0".join([*read, f"{out_of(name)}/{name}"])
    put(f"{TOP}/{out_of(name)}/sources", f"{listed}\0".encode("utf-8", "surrogateescape"), begun)


def is_program(path: str) -> bool:
    """Whether a file can be run as a program or a script. A shell runs any other one, an empty one too, as commands of its own."""
    try:
        with open(path, "rb") as file:
            return os.access(path, os.X_OK) and file.read(4).startswith((b"\x7fELF", b"#!"))
    except OSError:
        return False


def is_current(name: str) -> bool:
    """Whether a program was made from the sources as they are. A program that another command built has no record: times decide, once."""
    folder = f"{TOP}/{out_of(name)}"
    if not is_program(f"{folder}/{name}"):
        return False
    begun = tick(folder) if os.access(folder, os.W_OK) else None
    crates = below(read_lines()[1], [name])
    folders, files = walked(TOP, crates, PROVED_PARTS)
    files += [it for it in ("crates.txt", "HANDLES") if os.path.exists(f"{TOP}/{it}")]
    sources, record = sum_of(TOP, [name]), read_record(name)
    is_the_recorded = record is not None and record.program == sum_of_file(f"{folder}/{name}")
    is_made_from_them = record.sources == sources if record and is_the_recorded else not is_older(name, files)
    if is_made_from_them and begun is not None:
        note(name, sources, [*files, *folders, *(f"crates/{it}" for it in crates)], begun)
    return is_made_from_them


def main() -> int:
    parser = shared.words(__doc__)
    parser.add_argument("name", metavar="NAME", choices=PROGRAMS, help="the program: " + " or ".join(PROGRAMS))
    name = parser.parse_args().name
    try:
        return 0 if is_current(name) else 1
    except OSError as error:
        print(f"tlut: {error.filename}: {error.strerror}", file=sys.stderr)
        return 1


if __name__ == "__main__":
    sys.exit(main())
