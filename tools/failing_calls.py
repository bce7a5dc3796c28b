#!/usr/bin/env python3
"""Runs the built programs with each of their calls of files and streams failing in turn, and checks what is left.

    python3 tools/failing_calls.py [PROGRAM ..]

By default it runs both programs; call `./tlut` once before, to build them. It needs a C compiler, for a library that is loaded before the
program; without one nothing is tried, and the run says so. For each command the Nth call that opens, reads, writes or syncs fails, for
each N; and once more, if it writes, it takes half of the bytes and the next call on the same file fails. The expected result follows from
the complete call and from what failed, as docs/formats.md describes it. The last line is `N passed, M failed`, and the exit status is 1
if M isn't 0.
"""

from __future__ import annotations

import os
import subprocess
import sys
import tempfile

import shared

# Fails the call whose number is in FAILING, counted from 1, writes to TOLD whether it read, wrote or synced and which file, and how many
# calls there were. With HALF a write takes half first, and then each call on its file fails.
SHIM = r"""
#define _GNU_SOURCE
#include <dlfcn.h>
#include <errno.h>
#include <fcntl.h>
#include <stdarg.h>
#include <stdio.h>
#include <stdlib.h>
#include <string.h>
#include <unistd.h>
static long count, failing = -1;
static int is_half, broken = -1;
static char names[64][256] = {"in", "out", "err"}, told[300] = "nothing";
static int is_failing(void) {
    if (failing < 0) {
        const char *word = getenv("FAILING");
        failing = word ? atol(word) : 0;
        is_half = getenv("HALF") != NULL;
    }
    count += 1;
    return count == failing;
}
static char events[65536];
static size_t used, last;
static void tell(const char *kind, const char *name) { snprintf(told, sizeof told, "%s %s", kind, name); }
static void note(const char *kind, int file) {
    char line[300];
    size_t size = snprintf(line, sizeof line, "%s %s\n", kind, names[file]);
    if (used + size >= sizeof events || !strcmp(events + last, line)) return;
    last = used;
    memcpy(events + used, line, size + 1);
    used += size;
}
static int fail(void) { errno = EIO; return -1; }
int open(const char *name, int flags, ...) {
    static int (*next)(const char *, int, ...);
    if (!next) next = dlsym(RTLD_NEXT, "open");
    va_list rest;
    va_start(rest, flags);
    int mode = va_arg(rest, int);
    va_end(rest);
    if (is_failing()) {
        tell((flags & O_ACCMODE) == O_RDONLY ? "read" : "write", name);
        return fail();
    }
    int file = next(name, flags, mode);
    if (file >= 0 && file < 64) snprintf(names[file], 256, "%s", name);
    return file;
}
ssize_t read(int file, void *bytes, size_t size) {
    static ssize_t (*next)(int, void *, size_t);
    if (!next) next = dlsym(RTLD_NEXT, "read");
    if (is_failing()) {
        tell("read", names[file]);
        return fail();
    }
    return next(file, bytes, size);
}
ssize_t write(int file, const void *bytes, size_t size) {
    static ssize_t (*next)(int, const void *, size_t);
    if (!next) next = dlsym(RTLD_NEXT, "write");
    if (file == broken) return fail();
    if (is_failing()) {
        tell("write", names[file]);
        if (!is_half || size < 2) return fail();
        broken = file;
        return next(file, bytes, size / 2);
    }
    note("write", file);
    return next(file, bytes, size);
}
int ftruncate(int file, off_t size) {
    static int (*next)(int, off_t);
    if (!next) next = dlsym(RTLD_NEXT, "ftruncate");
    if (is_failing()) {
        tell("write", names[file]);
        return fail();
    }
    return next(file, size);
}
int fdatasync(int file) {
    static int (*next)(int);
    if (!next) next = dlsym(RTLD_NEXT, "fdatasync");
    if (is_failing()) {
        tell("sync", names[file]);
        return fail();
    }
    note("sync", file);
    return next(file);
}
__attribute__((destructor)) static void end(void) {
    const char *path = getenv("TOLD");
    FILE *file = path ? fopen(path, "w") : NULL;
    if (file) { fprintf(file, "%ld %s\n%s", count, told, events); fclose(file); }
}
"""

FILES = {
    "mux.blif": b".model mux\n.inputs a b p\n.outputs y\n.names p a b y\n11- 1\n0-1 1\n.end\n",
    "bad.blif": b".model mux\n.inputs a b p\n.outputs y\n.names p a b y\n1- 1\n.end\n",
    "mux.par": b"p 0\n",
    "mux.scr": b"set p=1\ncycle 10\nupset 3\nscrub\nimage\n",
    "host.scr": b"set p=1\nimage\n",
    "mux.pace": b"ask p=1\ntick 10\ntick 10\n",
    "mux.cert": b"depth 1\nclaim 6 1\npath 1 4 6\n",
    "mux.aag": b"aag 6 3 0 1 3\n2\n4\n6\n13\n8 6 2\n10 7 4\n12 11 9\ni0 a\ni1 b\ni2 p\no0 y\n",
    "one.ppc": bytes.fromhex("545050430001000100017000000000000000000400000000000000020000000300000001"),
}

# Each call with the files that it writes, in their order, and how many ports may fail.
CALLS: list[tuple[str, list[str], int]] = [
    ("run 2 mux.blif mux.par mux.scr 0 0", [], 0),
    ("run 2 mux.blif mux.par mux.scr 1 0", [], 0),
    ("run 2 mux.blif mux.par mux.scr 2 1", [], 1),
    ("run 2 bad.blif mux.par mux.scr 0 0", [], 0),
    ("run 2", [], 0),
    ("spec 2 mux.blif mux.par out.blif", ["out.blif"], 0),
    ("spec 2 mux.blif mux.par mux.blif", ["mux.blif"], 0),
    ("map 2 mux.blif mux.par t.blif m.ppc", ["t.blif", "m.ppc"], 0),
    ("map 2 mux.blif mux.par mux.par one.ppc", ["mux.par", "one.ppc"], 0),
    ("bits one.ppc host.scr", [], 0),
    ("repack one.ppc two.ppc", ["two.ppc"], 0),
    ("gen 1 0", [], 0),
    ("prove 2 mux.blif mux.par new.cert", ["new.cert"], 0),
    ("audit 2 mux.blif mux.par mux.cert", [], 0),
    ("graph mux.blif mux.par new.aag", ["new.aag"], 0),
    ("graph mux.aag mux.par mux.aag", ["mux.aag"], 0),
    ("pace 2 mux.blif mux.par mux.pace 1", [], 0),
]


class Left:
    """What a call leaves, how many calls it made, and what failed: `read`, `write` or `sync`, and a file, `out` or `err`."""

    def __init__(self, program: str, shim: str, words: str, failing: int, is_half: bool) -> None:
        with tempfile.TemporaryDirectory() as folder:
            for name, content in FILES.items():
                with open(f"{folder}/{name}", "wb") as file:
                    file.write(content)
            told = f"{folder}.told"
            half = {"HALF": "1"} if is_half else {}
            environment = {**os.environ, "LD_PRELOAD": shim, "FAILING": str(failing), "TOLD": told, **half}
            done = subprocess.run([program, *words.split()], cwd=folder, env=environment, capture_output=True, timeout=60, check=False)
            self.status, self.out, self.err = done.returncode, done.stdout, done.stderr
            self.files = {}
            for name in os.listdir(folder):
                with open(f"{folder}/{name}", "rb") as file:
                    self.files[name] = file.read()
            with open(told, encoding="utf-8") as file:
                first, *self.events = file.read().splitlines()
            os.remove(told)
            count, *what = first.split(" ")
            self.count, self.kind, self.name = int(count), what[0], what[-1]

    def has_synced(self, outputs: list[str]) -> bool:
        """Whether each file of these was synced once, after its last byte, and nothing else was."""
        syncs = [event[5:] for event in self.events if event.startswith("sync ")]
        return syncs == outputs and all(f"write {name}" not in self.events[self.events.index(f"sync {name}") :] for name in outputs)

    def ends(self, status: int, out: bytes, err: bytes) -> bool:
        """Whether the call ended so."""
        return (self.status, self.out, self.err) == (status, out, err)


def is_cut(left: Left, whole: Left, outputs: list[str], name: str) -> bool:
    """Whether the files before one are whole, it has a prefix or is as before, and all others are as before."""
    at = outputs.index(name)
    for other, content in {**FILES, **left.files}.items():
        before = FILES.get(other)
        got = left.files.get(other)
        if other in outputs[:at]:
            is_well = got == whole.files[other]
        elif other == name:
            is_well = got == before or (got is not None and whole.files[other].startswith(got))
        else:
            is_well = got == before
        if not is_well:
            return False
    return True


def image(files: dict[str, bytes], names: list[str]) -> dict[bytes, bytes]:
    """The value written last at each address by these ports."""
    written = (line.split(b"=") for name in names for line in files.get(name, b"").splitlines())
    return {address: value for address, value in written}


def has_ports(left: Left, whole: Left, spares: int) -> bool:
    """Whether a run continued after a port that failed, or ended when no spare was left."""
    ports = sorted(name for name in {**left.files, **whole.files} if name.startswith("port"))
    if not whole.files.get(left.name, left.files.get(left.name, b"")).startswith(left.files.get(left.name, b"")):
        return False
    if spares == 0:
        return left.status == 7 and left.err == b"tlut: port failed\n" and whole.out.startswith(left.out) and left.out[-1:] == b"\n"
    serving = [name for name in ports if name != left.name]
    return left.ends(0, whole.out, b"") and image(left.files, serving) == image(whole.files, ports)


def is_right(left: Left, whole: Left, outputs: list[str], spares: int) -> bool:
    """Whether what is left is what has to be, after what failed."""
    if left.status == 0 and not left.has_synced(outputs):
        return False
    if left.name == "err":
        return left.status == whole.status and whole.err.startswith(left.err) and left.out == whole.out and left.files == whole.files
    if left.name == "out":
        is_begun = all(content.startswith(left.files.get(name, b"")) for name, content in whole.files.items())
        is_begun = is_begun and all(left.files[name] == whole.files[name] for name in outputs)
        return left.status == 6 and left.err == b"tlut: write failed\n" and whole.out.startswith(left.out) and is_begun
    if left.kind == "read":
        return left.ends(5, b"", f"tlut: {left.name}: read failed\n".encode()) and left.files == FILES
    if left.kind == "sync" and left.name == outputs[-1]:
        return left.ends(6, whole.out, b"tlut: write failed\n") and left.files == whole.files
    if left.name in outputs:
        return left.ends(6, b"", b"tlut: write failed\n") and is_cut(left, whole, outputs, left.name)
    return has_ports(left, whole, spares)


def try_call(program: str, shim: str, words: str, outputs: list[str], spares: int) -> tuple[int, int]:
    """Fails each call of one command in turn. Returns how many runs left what they have to, and how many did not."""
    passed = failed = 0
    whole = Left(program, shim, words, 0, False)
    if not whole.has_synced(outputs if whole.status == 0 else []):
        failed += 1
        print(f"{words}: the files {outputs} aren't each synced once, after their last byte: {whole.events}")
    for failing in range(1, whole.count + 1):
        for is_half in (False, True):
            left = Left(program, shim, words, failing, is_half)
            if is_right(left, whole, outputs, spares):
                passed += 1
            else:
                failed += 1
                print(f"{words}: call {failing}, {left.kind} {left.name}: {left.status} {left.out!r} {left.err!r} {left.files}")
    print(f"{os.path.basename(program)} {words}: {whole.count} calls, each of which failed")
    return passed, failed


def main() -> int:
    programs = shared.some_programs(__doc__, shared.PROGRAMS)
    if not shared.has_compiler():
        print("left out, since cc isn't there")
        return 0
    passed = failed = 0
    with tempfile.TemporaryDirectory() as folder:
        shim = shared.preloaded(SHIM, folder)
        for program in programs:
            for call in CALLS:
                more = try_call(program, shim, *call)
                passed, failed = passed + more[0], failed + more[1]
    return shared.summary(passed, failed)


if __name__ == "__main__":
    sys.exit(main())
