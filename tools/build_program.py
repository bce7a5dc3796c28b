"""Proves and builds both programs, and reports its progress on stderr. `./tlut` calls it.

    python3 tools/build_program.py LOG

It copies the crates that the programs need to a folder of its own, without wrong bodies, and runs the gate there. The gate proves
independent crates side by side, gives idle processors to those that others wait for, and keeps on this machine what it proved, each crate
as soon as it is done. So a later gate, or a later call, proves none of it again, even if this one is interrupted. A program that was there
before stays until the new one replaces it.
"""

from __future__ import annotations

import contextlib
import os
import re
import shutil
import signal
import subprocess
import sys
import tempfile
from typing import Iterable, Iterator, TextIO

import shared
import sources
from progress import Voice, Work, read_work
from shared import TOP
from sources import PROGRAMS, below, read_lines

# What a check reads of a crate, and what its program is run on.
PARTS = ["src", "specs", "proofs", "stdin", "stdout", "args", "status", "data"]
# The exit status after an interrupt, as a shell has it.
INTERRUPTED = 130
SIGNALS = (signal.SIGINT, signal.SIGTERM, signal.SIGHUP)
# For a crate without a line in crate_work.txt.
UNKNOWN = Work(1.0, "not described yet")


class Interrupted(Exception):
    """A signal asks for the end."""


def interrupt(*_: object) -> None:
    raise Interrupted


def copy_crates(room: str, programs: Iterable[str] = PROGRAMS) -> set[str]:
    """Copies what the programs are made from, and returns the names of the crates."""
    lines, uses = read_lines()
    names = below(uses, programs)
    shutil.copy(f"{TOP}/HANDLES", room)
    with open(f"{room}/crates.txt", "w", encoding="utf-8") as file:
        file.writelines(f"{lines[it]}\n" for it in lines if it in names)
    for name in names:
        for part in PARTS:
            source, target = f"{TOP}/crates/{name}/{part}", f"{room}/crates/{name}/{part}"
            if os.path.isdir(source):
                shutil.copytree(source, target)
            elif os.path.exists(source):
                shutil.copy(source, target)
    return names


def ignore_signals() -> None:
    """What has to be cleaned up is cleaned up, whatever comes."""
    for number in SIGNALS:
        signal.signal(number, signal.SIG_IGN)


@contextlib.contextmanager
def ended(gate: subprocess.Popen[str]) -> Iterator[None]:
    """Ends the gate, and with it all that it started, if this process is to end first. A terminal's interrupt reaches the gate by itself."""
    try:
        yield
    except Interrupted:
        ignore_signals()
        for number, seconds in ((0, 2), (signal.SIGINT, 15), (signal.SIGKILL, 15)):
            if gate.poll() is None:
                gate.send_signal(number)
                with contextlib.suppress(subprocess.TimeoutExpired):
                    gate.wait(seconds)
        raise


def prove(room: str, voice: Voice, log: TextIO) -> bool:
    """Runs the gate in the room, reports each crate that is proved, and returns whether all were."""
    gate = subprocess.Popen(
        ["rt", "ci"], cwd=room, stdin=subprocess.DEVNULL, stdout=subprocess.PIPE, stderr=subprocess.STDOUT, text=True
    )
    voice.watches(gate.pid)
    with ended(gate):
        for line in gate.stdout or ():
            log.write(line)
            found = re.match(r"rt: (\w+) (proved$|is kept)", line)
            if found:
                voice.step(found[1], found[2] == "is kept")
        return gate.wait() == 0


def place(room: str, name: str, made_from: str) -> None:
    """Moves a built program to its path in one step, and keeps what it was made from."""
    folder = f"{TOP}/{sources.out_of(name)}"
    os.makedirs(folder, exist_ok=True)
    new = f"{folder}/{name}.{os.getpid()}"
    shutil.copy(f"{room}/crates/{name}/out/{name}", new)
    os.replace(new, f"{folder}/{name}")
    sources.write_record(name, made_from)


def build(log: TextIO) -> bool:
    """Proves and builds both programs in a room, and returns whether it could."""
    with tempfile.TemporaryDirectory(prefix="tlut-") as room:
        copy_crates(room)
        made_from = {name: sources.sum_of(room, [name]) for name in PROGRAMS}
        work, (_, uses) = read_work(), read_lines(room)
        with Voice({name: work.get(name, UNKNOWN) for name in uses}, uses) as voice:
            is_proved = prove(room, voice, log)
        for name in PROGRAMS if is_proved else ():
            place(room, name, made_from[name])
    return is_proved


def lacking() -> str:
    """What is said if `rt` isn't there."""
    if os.path.exists(f"{TOP}/{sources.out_of(PROGRAMS[0])}/{PROGRAMS[0]}"):
        return "the sources have changed since the program was proved, and rt, which proves them, is not on the PATH; the earlier program stays as it was"
    return "the program is not built yet, and rt, which builds it, is not on the PATH"


def main() -> int:
    parser = shared.words(__doc__)
    parser.add_argument("log", metavar="LOG", help="the file for what the check prints")
    path = parser.parse_args().log
    if not shutil.which("rt"):
        print(f"tlut: {lacking()}", file=sys.stderr)
        return 1
    print(f"tlut: proving the program; on a new machine with four processors this takes 20 to 90 minutes (log: {path})", file=sys.stderr)
    print("tlut: for a look before that, ./tlut --unproved ..; after an interrupt, the next call continues where this one stopped", file=sys.stderr)
    for number in SIGNALS:
        signal.signal(number, interrupt)
    try:
        with open(path, "w", encoding="utf-8") as log:
            is_proved = build(log)
    except Interrupted:
        print("tlut: interrupted; what is proved is kept, and the next call continues there", file=sys.stderr)
        return INTERRUPTED
    if not is_proved:
        print(f"tlut: the program was not proved; see {path}", file=sys.stderr)
    return 0 if is_proved else 1


if __name__ == "__main__":
    sys.exit(main())
