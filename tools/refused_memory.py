#!/usr/bin/env python3
"""Runs the built program with each of its allocations refused in turn, and checks what is left.

    python3 tools/refused_memory.py [PROGRAM]

Outside the gate. Call `./tlut` once before, to build the program. It needs a C compiler, for a library that is loaded before the program
and refuses the Nth allocation. For each command N rises until the call ends as it does with all memory. Each call before that must end
with status 8, with nothing printed on stdout and no file written, or be complete. The first of them, which lack memory for the arguments or
the ports, write nothing on stderr; from the first one that writes the fault line, each one must. The last line is `N passed, M failed`, and
the exit status is 1 if M isn't 0.
"""

from __future__ import annotations

import os
import subprocess
import sys
import tempfile

import shared

# Refuses the allocation whose number is in REFUSED, counted from 1, and reports at the end how many there were.
SHIM = r"""
#define _GNU_SOURCE
#include <dlfcn.h>
#include <errno.h>
#include <stdio.h>
#include <stdlib.h>
static long count, refused = -1;
static int is_refused(void) {
    if (refused < 0) { const char *word = getenv("REFUSED"); refused = word ? atol(word) : 0; }
    count += 1;
    if (count != refused) return 0;
    errno = ENOMEM;
    return 1;
}
void *malloc(size_t n) {
    static void *(*next)(size_t);
    if (!next) next = dlsym(RTLD_NEXT, "malloc");
    return is_refused() ? NULL : next(n);
}
void *realloc(void *p, size_t n) {
    static void *(*next)(void *, size_t);
    if (!next) next = dlsym(RTLD_NEXT, "realloc");
    return is_refused() ? NULL : next(p, n);
}
void *aligned_alloc(size_t a, size_t n) {
    static void *(*next)(size_t, size_t);
    if (!next) next = dlsym(RTLD_NEXT, "aligned_alloc");
    return is_refused() ? NULL : next(a, n);
}
int posix_memalign(void **p, size_t a, size_t n) {
    static int (*next)(void **, size_t, size_t);
    if (!next) next = dlsym(RTLD_NEXT, "posix_memalign");
    return is_refused() ? ENOMEM : next(p, a, n);
}
__attribute__((destructor)) static void tell(void) {
    const char *path = getenv("COUNTED");
    FILE *file = path ? fopen(path, "w") : NULL;
    if (file) { fprintf(file, "%ld", count); fclose(file); }
}
"""

# What a call leaves: its status, its outputs and the files after it.
Left = tuple[int, bytes, bytes, dict[str, bytes]]

FILES = {
    "one.aag": b"aag 6 3 0 1 3\n2\n4\n6\n13\n8 6 2\n10 7 4\n12 11 9\ni0 a\ni1 b\ni2 p\no0 y\n",
    "mux.blif": b".model mux\n.inputs a b p\n.outputs y\n.names p a b y\n11- 1\n0-1 1\n.end\n",
    "mux.par": b"p 0\n",
    "mux.scr": b"set p=1\ncycle 10\nupset 3\nscrub\nimage\n",
    "host.scr": b"set p=1\nimage\n",
    "pace.scr": b"ask p=1\ntick 10\ntick 10\ntick 10\n",
    "one.cert": b"depth 1\nclaim 6 1\npath 1 4 6\n",
    "one.ppc": bytes.fromhex("545050430001000100017000000000000000000400000000000000020000000300000001"),
}

CALLS = [
    "run 2 mux.blif mux.par mux.scr 2 1",
    "spec 2 mux.blif mux.par out.blif",
    "map 2 mux.blif mux.par t.blif m.ppc",
    "bits one.ppc host.scr",
    "repack one.ppc two.ppc",
    "prove 2 mux.blif mux.par mux.cert",
    "audit 2 mux.blif mux.par one.cert",
    "graph mux.blif mux.par mux.aag",
    "run 2 one.aag mux.par mux.scr 0 0",
    "pace 2 mux.blif mux.par pace.scr 1",
    "gen 1 0",
    "gen 2 1",
]


def call(program: str, shim: str, words: str, refused: int) -> tuple[Left, int]:
    """What a call leaves: status, outputs and files; and how many allocations it made."""
    with tempfile.TemporaryDirectory() as folder:
        for name, content in FILES.items():
            with open(f"{folder}/{name}", "wb") as file:
                file.write(content)
        counted = f"{folder}.counted"
        environment = {**os.environ, "LD_PRELOAD": shim, "REFUSED": str(refused), "COUNTED": counted}
        done = subprocess.run([program, *words.split()], cwd=folder, env=environment, capture_output=True, timeout=60)
        files = {name: open(f"{folder}/{name}", "rb").read() for name in os.listdir(folder)}
        count = int(open(counted).read()) if os.path.exists(counted) else 0
        if os.path.exists(counted):
            os.remove(counted)
        return (done.returncode, done.stdout, done.stderr, files), count


def main() -> int:
    program, passed, failed = shared.one_program(__doc__), 0, 0
    if not shared.has_compiler():
        print("left out, since cc isn't there")
        return 0
    with tempfile.TemporaryDirectory() as folder:
        shim = shared.preloaded(SHIM, folder)
        for words in CALLS:
            whole, count = call(program, shim, words, 0)
            refusals, silent = 0, 0
            for refused in range(1, count + 1):
                left, _ = call(program, shim, words, refused)
                # A call that can't get its arguments or its ports ends without a line; each other one reports that it is out of memory.
                is_told = left == (8, b"", b"tlut: out of memory\n", FILES)
                is_silent = left == (8, b"", b"", FILES) and silent == refusals
                refusals += left[0] == 8
                silent += is_silent
                if left == whole or is_told or is_silent:
                    passed += 1
                else:
                    failed += 1
                    print(f"{words}: allocation {refused}: {left[:3]}")
            print(f"{words}: {count} allocations, {refusals} of which end it, the first {silent} without a line")
    return shared.summary(passed, failed)


if __name__ == "__main__":
    sys.exit(main())
