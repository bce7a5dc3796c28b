"""Proves the library for host programs and compiles it for a processor. `make -C include` calls it.

    python3 tools/host_archive.py RT TARGET CPU ARCHIVE

RT is the toolchain's command. The crates that the library depends on are copied to a folder of their own, and the gate runs there. It
takes whatever an earlier run on this machine has proved, the gate's or the first call's of ./tlut, and proves the rest. What it leaves is
the same for every processor. The library's own crate is then proved and compiled for the given one.
"""

from __future__ import annotations

import os
import shutil
import signal
import subprocess
import sys
import tempfile

import shared
import sources
from build_program import INTERRUPTED, SIGNALS, Interrupted, copy_crates, ended, interrupt
from shared import TOP

CRATE = "tlut_host"


def compiling(room: str, kit: str, target: str, cpu: str, archive: str) -> list[str]:
    """The call that proves the library's own crate, and compiles it with what it uses of the crates below."""
    rlibs = {name: f"{room}/crates/{name}/out/rlib" for name in sources.read_lines(room)[0]}
    words = [f"{kit}/bin/rattle", "build", "--crate-name", CRATE, "src/lib.rt", "--crate-type", "staticlib"]
    for name in ["std", *sources.read_lines()[0][CRATE].split(":")[1].split()]:
        words += ["--extern", f"{name}={rlibs.get(name, f'{kit}/rlibs')}/{name}.rlib"]
    for folder in [f"{kit}/rlibs", *(rlibs[name] for name in sorted(rlibs))]:
        words += ["-L", f"dependency={folder}"]
    words += ["--antt-project", f"{kit}/rattle/logic/antt-project.json", "--logic-built", f"{kit}/logic_built"]
    words += ["--toolchain", f"{kit}/toolchain", "--backend", "llvm", "--target", target, "--cpu", cpu]
    return [*words, "--jobs", str(min(2, os.cpu_count() or 1)), "-o", archive]


def build(rt: str, target: str, cpu: str, archive: str) -> int:
    """Proves and compiles, and returns the status."""
    kit = os.path.dirname(os.path.dirname(os.path.realpath(rt)))
    with tempfile.TemporaryDirectory(prefix="tlut-") as folder:
        room, own = f"{folder}/below", f"{folder}/{CRATE}"
        os.mkdir(room)
        shutil.copytree(f"{TOP}/crates/{CRATE}", own, ignore=shutil.ignore_patterns("out", "must-fail", "wrong-bodies"))
        copy_crates(room, sources.read_lines()[1][CRATE])
        words = compiling(room, kit, target, cpu, f"{folder}/made.a")
        for call, place in (([rt, "ci"], room), (words, own)):
            process = subprocess.Popen(call, cwd=place, stdin=subprocess.DEVNULL, text=True)
            with ended(process):
                status = process.wait()
            if status:
                return status
        shutil.move(f"{folder}/made.a", archive)
    return 0


def main() -> int:
    parser = shared.words(__doc__)
    for name, about in (("rt", "the toolchain's command"), ("target", "x86_64-unknown-linux-gnu or aarch64-unknown-linux-gnu")):
        parser.add_argument(name, metavar=name.upper(), help=about)
    for name, about in (("cpu", "the processor, as `rattle build --cpu` has it"), ("archive", "the file for the archive")):
        parser.add_argument(name, metavar=name.upper(), help=about)
    given = parser.parse_args()
    rt = shutil.which(given.rt)
    if not rt:
        print(f"{given.rt} isn't installed: it proves and builds the library", file=sys.stderr)
        return 1
    for number in SIGNALS:
        signal.signal(number, interrupt)
    try:
        return build(rt, given.target, given.cpu, os.path.abspath(given.archive))
    except Interrupted:
        print("interrupted; what is proved is kept, and the next call continues there", file=sys.stderr)
        return INTERRUPTED


if __name__ == "__main__":
    sys.exit(main())
