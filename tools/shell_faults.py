#!/usr/bin/env python3
"""Runs the built programs as a user's shell would in bad moments, and compares the status, the outputs and the files with what is promised.

    python3 tools/shell_faults.py [PROGRAM ..]

By default it runs both programs; call `./tlut` once before, to build them. It tries a pipe that nobody reads, a full disk, a limit of a
file's size, closed streams, an output or an error stream that is a file which the command writes, also where there is no /proc, one file
by two names, a folder instead of a file, a file without rights, a FIFO, and arguments that aren't UTF-8. The last line is
`N passed, M failed`, and the exit status is 1 if M isn't 0.
"""

from __future__ import annotations

import os
import resource
import shutil
import signal
import subprocess
import sys
import tempfile
import threading
from typing import Callable, Iterator, Optional, Sequence, TextIO, Union

import shared

MUX = ".model mux\n.inputs a b p\n.outputs y\n.names p a b y\n11- 1\n0-1 1\n.end\n"
SPEC = ".model mux\n.inputs a b\n.outputs y\n.names a b _n13\n01 1\n11 1\n.names _n13 y\n1 1\n.end\n"
PACK = b"TPPC\x00\x02\x01\x01p\x00\x00\x04\x00\x02\x03\x01"
HEADER = "luts 1 bits 4 depth 1\n"
CERT = "depth 1\nclaim 6 1\npath 1 4 6\n"
GRAPH = "aag 6 3 0 1 3\n2\n4\n6\n13\n8 6 2\n10 7 4\n12 11 9\ni0 a\ni1 b\ni2 p\no0 y\n"
RUN = ["run", "2", "mux.blif", "mux.par", "mux.scr", "0", "0"]
FILES = {
    "mux.blif": MUX.encode(),
    "mux.par": b"p 0\n",
    "mux.scr": b"set p=1\n",
    "mux.pace": b"ask p=1\ntick 10\ntick 10\n",
    "mux.cert": CERT.encode(),
    "mux.ppc": PACK,
}
# A call of each command: its arguments, what it prints, and the files that it writes.
COMMANDS: list[tuple[list[str], str, dict[str, bytes]]] = [
    (RUN, HEADER + "set 2 1=1 2=0\n", {}),
    (["spec", "2", "mux.blif", "mux.par", "new.blif"], HEADER, {"new.blif": SPEC.encode()}),
    (["map", "2", "mux.blif", "mux.par", "new.blif", "new.ppc"], HEADER, {"new.ppc": PACK}),
    (["bits", "mux.ppc", "mux.scr"], "bits 4\nset 2 1=1 2=0\n", {}),
    (["gen", "1", "0"], "gen 1 0\nluts 2 bits 3 depth 1\nrounds 100 writes 100 total 50\n", {}),
    (["repack", "mux.ppc", "new.ppc"], "bits 4\n", {"new.ppc": PACK}),
    (["prove", "2", "mux.blif", "mux.par", "new.cert"], "depth 1\n", {"new.cert": CERT.encode()}),
    (["audit", "2", "mux.blif", "mux.par", "mux.cert"], "depth at least 1\n", {}),
    (["graph", "mux.blif", "mux.par", "new.aag"], "inputs 3 latches 0 ands 3\n", {"new.aag": GRAPH.encode()}),
    (["pace", "2", "mux.blif", "mux.par", "mux.pace", "1"], HEADER + "ask 2\nwait 1 1=1\nwait 1 2=0\n", {}),
]
FAILED = "tlut: write failed\n"
NOBODY = 65534
# Begins a command with an empty folder as its /proc.
WITHOUT_PROC = ["unshare", "-m", "sh", "-c", 'mount -t tmpfs none /proc && exec "$@"', "sh"]
# The title of each call, and whether it ended as it has to.
Outcomes = Iterator[tuple[str, bool]]


class Ran:
    """A call in a new folder with the multiplexer's files: its status, its outputs and the files after it."""

    program = shared.PROGRAM

    def __init__(self, words: Sequence[Union[str, bytes]], prepare: Optional[Callable[[str], object]] = None, stdout: Union[int, TextIO] = subprocess.PIPE, small_stack: bool = False, as_nobody: bool = False, closed: tuple[int, ...] = (), onto: Optional[str] = None, errors_onto: Optional[str] = None, has_limit: bool = False, has_proc: bool = True) -> None:
        """`closed` has the descriptors of streams that are closed, `onto` the file that standard output is, and `errors_onto` that of standard
        error. With `has_limit` no file may grow, and the signal that tells so is ignored."""
        with tempfile.TemporaryDirectory() as folder:
            os.chmod(folder, 0o777)
            program = shutil.copy(self.program, f"{folder}/tlut")
            os.chmod(program, 0o755)
            for name, content in FILES.items():
                with open(f"{folder}/{name}", "wb") as file:
                    file.write(content)
            if prepare:
                prepare(folder)

            def limits() -> None:
                if small_stack:
                    resource.setrlimit(resource.RLIMIT_STACK, (256 * 1024, 256 * 1024))
                if has_limit:
                    signal.signal(signal.SIGXFSZ, signal.SIG_IGN)
                    resource.setrlimit(resource.RLIMIT_FSIZE, (0, 0))
                for name, stream in ((onto, 1), (errors_onto, 2)):
                    if name:
                        os.dup2(os.open(f"{folder}/{name}", os.O_WRONLY | os.O_CREAT | os.O_TRUNC, 0o666), stream)
                for stream in closed:
                    os.close(stream)
                if as_nobody:
                    os.setuid(NOBODY)

            done = subprocess.run(
                [*([] if has_proc else WITHOUT_PROC), program, *words], cwd=folder, stdin=subprocess.DEVNULL, stdout=stdout, stderr=subprocess.PIPE, timeout=60, preexec_fn=limits, check=False
            )
            self.status, self.out, self.err = done.returncode, (done.stdout or b"").decode(), done.stderr.decode()
            self.files = {name: self.bytes_of(f"{folder}/{name}") for name in os.listdir(folder) if name != "tlut"}

    @staticmethod
    def bytes_of(path: str) -> Optional[bytes]:
        """A file's bytes, or nothing where it is no plain file or may not be read."""
        if not os.path.isfile(path):
            return None
        with open(path, "rb") as file:
            return file.read()

    def is_so(self, status: int, out: str, err: str) -> bool:
        """Whether the call ended like this."""
        return (self.status, self.out, self.err) == (status, out, err)

    def has(self, written: dict[str, bytes]) -> bool:
        """Whether the files are those that were there before, with these that were written."""
        return {name: content for name, content in self.files.items() if name in written} == written

    def is_as_before(self) -> bool:
        """Whether no file was written or changed."""
        return self.files == FILES


def unread_pipe() -> int:
    """The end of a pipe that nobody reads."""
    reading, writing = os.pipe()
    os.close(reading)
    return writing


def folder_at(name: str) -> Callable[[str], None]:
    """Replaces a file by a folder."""

    def put(folder: str) -> None:
        if os.path.exists(f"{folder}/{name}"):
            os.remove(f"{folder}/{name}")
        os.mkdir(f"{folder}/{name}")

    return put


def fifo(folder: str) -> None:
    """Replaces the netlist by a FIFO into which its text is written."""
    path = f"{folder}/mux.blif"
    os.remove(path)
    os.mkfifo(path)

    def write() -> None:
        with open(path, "w") as file:
            file.write(MUX)

    threading.Thread(target=write, daemon=True).start()


def single_calls() -> Outcomes:
    """The title and the outcome of calls of single commands."""
    full = open("/dev/full", "w", encoding="utf-8")
    yield "a sound call", Ran(RUN).is_so(0, HEADER + "set 2 1=1 2=0\n", "")
    yield "a sound call on a small stack", Ran(RUN, small_stack=True).is_so(0, HEADER + "set 2 1=1 2=0\n", "")
    yield "a pipe that nobody reads", Ran(RUN, stdout=unread_pipe()).is_so(6, "", FAILED)
    yield "a full disk behind the output", Ran(RUN, stdout=full).is_so(6, "", FAILED)
    yield "a folder as NETLIST", Ran(RUN, folder_at("mux.blif")).is_so(5, "", "tlut: mux.blif: read failed\n")
    yield "a folder as PARAMS", Ran(RUN, folder_at("mux.par")).is_so(5, "", "tlut: mux.par: read failed\n")
    yield "no SCRIPT", Ran(RUN, lambda folder: os.remove(f"{folder}/mux.scr")).is_so(5, "", "tlut: mux.scr: read failed\n")
    yield "a FIFO as NETLIST", Ran(RUN, fifo).is_so(0, HEADER + "set 2 1=1 2=0\n", "")
    yield "words that aren't UTF-8", Ran([b"run", b"2", b"\xff", b"mux.par", b"mux.scr", b"0", b"0"]).is_so(2, "", "")
    if os.getuid() == 0:
        locked = Ran(RUN, lambda folder: os.chmod(f"{folder}/mux.blif", 0), as_nobody=True)
        yield "a NETLIST without rights", locked.is_so(5, "", "tlut: mux.blif: read failed\n")
    ports = Ran([*RUN[:5], "2", "0"])
    sent = {"port0.bits": b"0=0\n1=0\n1=1\n", "port1.bits": b"2=1\n3=1\n2=0\n"}
    yield "the files of two ports", ports.is_so(0, HEADER + "set 2 1=1 2=0\n", "") and ports.files == {**FILES, **sent}
    port = Ran([*RUN[:5], "1", "0"], folder_at("port0.bits"))
    yield "a folder as a port", port.is_so(7, HEADER, "tlut: port failed\n")

    spec = ["spec", "2", "mux.blif", "mux.par"]
    ran = Ran([*spec, "out.blif"])
    yield "a specialised netlist", ran.is_so(0, HEADER, "") and ran.files["out.blif"] == SPEC.encode()
    yield "a full disk behind OUT", Ran([*spec, "/dev/full"]).is_so(6, "", FAILED)
    yield "a folder as OUT", Ran([*spec, "out"], folder_at("out")).is_so(6, "", FAILED)
    ran = Ran([*spec, "out.blif"], stdout=full)
    yield "OUT is whole where the line fails", ran.is_so(6, "", FAILED) and ran.files["out.blif"] == SPEC.encode()
    ran = Ran(["spec", "2", "mux.blif", "mux.scr", "out.blif"])
    yield "a refused list leaves no file", ran.is_so(3, "", "tlut: mux.scr: P1 Malformed line 1\n") and "out.blif" not in ran.files
    ran = Ran(["map", "2", "mux.blif", "mux.par", "t.blif", "pack"], folder_at("pack"))
    yield "TEMPLATE is whole where PACK fails", ran.is_so(6, "", FAILED) and (ran.files["t.blif"] or b"").endswith(b".end\n")
    ran = Ran(["map", "2", "mux.blif", "mux.par", "t", "m.ppc"], folder_at("t"))
    yield "no PACK where TEMPLATE fails", ran.is_so(6, "", FAILED) and "m.ppc" not in ran.files
    ran = Ran(["map", "2", "mux.blif", "mux.par", "t.blif", "m.ppc"])
    yield "a pack", ran.is_so(0, HEADER, "") and ran.files["m.ppc"] == PACK
    yield "no PACK to play", Ran(["bits", "m.ppc", "mux.scr"]).is_so(5, "", "tlut: m.ppc: read failed\n")
    yield "a generated case, and nobody reads", Ran(["gen", "1", "0"], stdout=unread_pipe()).is_so(6, "", FAILED)


def stream_calls() -> Outcomes:
    """The title and the outcome of a call of each command with streams that are closed, full or unread."""
    for words, out, written in COMMANDS:
        title = " ".join(words)
        ran = Ran(words)
        yield title, ran.is_so(0, out, "") and ran.has(written)
        for closed in [(1,), (0, 1), (1, 2), (0, 1, 2)]:
            ran = Ran(words, closed=closed)
            yield f"{title}: streams {closed} are closed", ran.is_so(6, "", "" if 2 in closed else FAILED) and ran.is_as_before()
        for closed in [(0,), (2,), (0, 2)]:
            ran = Ran(words, closed=closed)
            yield f"{title}: streams {closed} are closed", ran.is_so(0, out, "") and ran.has(written)
        yield f"{title}: a full disk behind the output", Ran(words, stdout=open("/dev/full", "w", encoding="utf-8")).is_so(6, "", FAILED)
        yield f"{title}: a pipe that nobody reads", Ran(words, stdout=unread_pipe()).is_so(6, "", FAILED)
        for name in written:
            ran = Ran(words, onto=name)
            yield f"{title}: the output is {name}", ran.is_so(6, "", FAILED) and ran.files == {**FILES, name: b""}
            ran = Ran(words, errors_onto=name)
            yield f"{title}: the error stream is {name}", ran.is_so(6, "", "") and ran.files == {**FILES, name: FAILED.encode()}


def shared_calls() -> Outcomes:
    """The title and the outcome of calls whose output is a file that they write under another name."""
    spec = ["spec", "2", "mux.blif", "mux.par"]
    ran = Ran([*spec, "/dev/stdout"], onto="new.blif")
    yield "OUT is /dev/stdout, and a file", ran.is_so(6, "", FAILED) and ran.files == {**FILES, "new.blif": b""}
    yield "OUT is /dev/stdout, and a pipe", Ran([*spec, "/dev/stdout"]).is_so(0, SPEC + HEADER, "")
    ran = Ran([*spec, "new.blif"], lambda folder: os.symlink("other.blif", f"{folder}/new.blif"), onto="other.blif")
    yield "OUT is a link to the output", ran.is_so(6, "", FAILED)
    ports = Ran([*RUN[:5], "1", "0"], onto="port0.bits")
    yield "a port's file is the output", ports.is_so(6, "", FAILED) and ports.files["port0.bits"] == b""
    printed = (HEADER + "set 2 1=1 2=0\n").encode()
    ran = Ran(RUN, onto="port0.bits")
    yield "no port serves, and the output is named as one", ran.is_so(0, "", "") and ran.files["port0.bits"] == printed
    ran = Ran([*RUN[:5], "1", "0"], onto="port3.bits")
    yield "the output is named as a port that isn't used", ran.is_so(0, "", "") and ran.files["port3.bits"] == printed
    ran = Ran([*RUN[:5], "1", "1"], onto="port1.bits")
    yield "the output is a spare's file", ran.is_so(6, "", FAILED) and ran.files == {**FILES, "port1.bits": b""}
    ran = Ran([*RUN[:5], "1", "0"], errors_onto="port0.bits")
    yield "the error stream is a port's file", ran.is_so(6, "", "") and ran.files == {**FILES, "port0.bits": FAILED.encode()}
    ran = Ran([*RUN[:5], "9", "0"], onto="port3.bits")
    yield "more ports than there are, and the output is named as one", ran.status == 2 and ran.err.startswith("tlut: usage: ") and ran.files == {**FILES, "port3.bits": b""}
    ran = Ran([*spec, "new.blif"], stdout=open("/dev/full", "w", encoding="utf-8"), errors_onto="new.blif")
    yield "the error stream is OUT, and the output is full", ran.is_so(6, "", "") and ran.files == {**FILES, "new.blif": FAILED.encode()}
    ran = Ran(["spec", "2", "mux.blif", "mux.scr", "new.blif"], closed=(2,))
    yield "a fault line goes into no file", ran.is_so(3, "", "") and ran.is_as_before()


def linked(make: Callable[[str, str], object], name: str, other: str, content: Optional[bytes] = None) -> Callable[[str], None]:
    """Makes `other` a link to a file, which is there with this content, or isn't."""

    def put(folder: str) -> None:
        if content is not None:
            with open(f"{folder}/{name}", "wb") as file:
                file.write(content)
        make(f"{folder}/{name}", f"{folder}/{other}")

    return put


def twice_named_calls() -> Outcomes:
    """The title and the outcome of calls that write one file by two names."""
    template = Ran(["map", "2", "mux.blif", "mux.par", "t", "m"]).files["t"]
    links: list[tuple[str, str, Optional[Callable[[str], None]]]] = [
        ("another name", "./t", None),
        ("a symbolic link", "u", linked(os.symlink, "t", "u")),
        ("a hard link", "u", linked(os.link, "t", "u", b"old")),
    ]
    for title, pack, prepare in links:
        ran = Ran(["map", "2", "mux.blif", "mux.par", "t", pack], prepare)
        yield f"PACK is TEMPLATE by {title}", ran.is_so(6, "", FAILED) and ran.files["t"] == template
    ran = Ran(["map", "2", "mux.blif", "mux.par", "/dev/null", "/dev/../dev/null"])
    yield "TEMPLATE and PACK are the null device", ran.is_so(0, HEADER, "") and ran.is_as_before()
    for make, content in ((os.symlink, None), (os.link, b"old")):
        ports = linked(make, "port0.bits", "port1.bits", content)
        ran = Ran([*RUN[:5], "2", "0"], ports)
        yield "two ports share a file", ran.is_so(7, HEADER, "tlut: port failed\n") and ran.files["port0.bits"] == b"0=0\n1=0\n"
        ran = Ran([*RUN[:5], "2", "1"], ports)
        whole = {"port0.bits": b"0=0\n1=0\n1=1\n", "port2.bits": b"2=1\n3=1\n2=0\n"}
        yield "two ports share a file, and a spare stands by", ran.is_so(0, HEADER + "set 2 1=1 2=0\n", "") and ran.has(whole)


def limited_calls() -> Outcomes:
    """The title and the outcome of calls with a limit of a file's size, and of calls where there is no /proc."""
    for words, _, written in COMMANDS:
        ran = Ran(words, has_limit=True)
        if written:
            yield f"{' '.join(words)}: no file may grow", ran.is_so(6, "", FAILED) and all(not ran.files[name] for name in ran.files if name not in FILES)
    port = Ran([*RUN[:5], "1", "0"], has_limit=True)
    yield "no file of a port may grow", port.is_so(7, HEADER, "tlut: port failed\n")
    if subprocess.run([*WITHOUT_PROC, "true"], capture_output=True, check=False).returncode != 0:
        print("left out: calls without /proc, since it can't be hidden here")
        return
    for words, out, written in COMMANDS:
        title = f"{' '.join(words)}: no /proc"
        yield title, Ran(words, has_proc=False).is_so(0, out, "")
        yield f"{title}, and another file is the output", Ran(words, onto="other", has_proc=False).is_so(0, "", "")
        for name in written:
            ran = Ran(words, onto=name, has_proc=False)
            yield f"{title}, and the output is {name}", ran.is_so(6, "", FAILED) and ran.files == {**FILES, name: b""}
            ran = Ran(words, errors_onto=name, has_proc=False)
            yield f"{title}, and the error stream is {name}", ran.is_so(6, "", "") and ran.files == {**FILES, name: FAILED.encode()}


def main() -> int:
    passed = failed = 0
    for program in shared.some_programs(__doc__, shared.PROGRAMS):
        Ran.program = program
        for calls in (single_calls, stream_calls, shared_calls, twice_named_calls, limited_calls):
            for title, outcome in calls():
                if not outcome:
                    print(f"{os.path.basename(program)}: {title}: NO")
                passed, failed = passed + outcome, failed + (not outcome)
    return shared.summary(passed, failed)


if __name__ == "__main__":
    sys.exit(main())
