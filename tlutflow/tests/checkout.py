"""A small checkout for tests of the wrapper: its own copy of the wrapper and the tools, and scripts that stand for the programs."""

from __future__ import annotations

import os
import shutil
import subprocess

from tlutflow.tests.helpers import TOP, InFolder

# Stands for the program: it shows its words, and ends with a status of its own.
PROGRAM = '#!/bin/sh\nfor word in "$@"; do printf "<%s>" "$word"; done\nprintf fault >&2\nexit 7\n'
# And for the one for few tables.
COMPACT = '#!/bin/sh\nprintf "compact"; for word in "$@"; do printf "<%s>" "$word"; done\nexit 3\n'
CRATES = "# crates\nbase:\ntlut: base\ntlut_compact: base\nother: base\n"
SOURCES = ("crates/base/src/lib.rt", "crates/base/proofs/Lib.antt", "crates/tlut/src/main.rt", "crates/tlut_compact/src/main.rt", "crates/other/src/lib.rt")


class Checkout(InFolder):
    """A folder with a checkout `top` whose two programs are built."""

    def setUp(self) -> None:
        super().setUp()
        self.top = f"{self.folder}/top"
        os.makedirs(self.top)
        for name in ("tlut", "flow"):
            shutil.copy(f"{TOP}/{name}", f"{self.top}/{name}")
        for name in ("tools", "tlutflow"):
            shutil.copytree(f"{TOP}/{name}", f"{self.top}/{name}", ignore=shutil.ignore_patterns("__pycache__", "tests"))
        self.put_in("crates.txt", CRATES)
        self.put_in("HANDLES", "Handles allowed: none.\n")
        for name in SOURCES:
            self.put_in(name, "")
        for name in ("crates.txt", "HANDLES", *SOURCES):
            os.utime(f"{self.top}/{name}", (1, 1))
        self.put_program("tlut", PROGRAM)
        self.put_program("tlut_compact", COMPACT)

    def put_in(self, name: str, text: str) -> str:
        """Writes a file of the checkout."""
        os.makedirs(os.path.dirname(f"{self.top}/{name}"), exist_ok=True)
        return self.put(f"top/{name}", text)

    def put_program(self, name: str, text: str) -> None:
        """Puts a built program in place."""
        os.chmod(self.put_in(f"crates/{name}/out/{name}", text), 0o755)

    def call(self, path: str, *words: str, **variables: str) -> subprocess.CompletedProcess:
        """Runs a command in the folder, with further variables."""
        return subprocess.run([path, *words], capture_output=True, text=True, cwd=self.folder, env={**os.environ, **variables}, check=False)

    def put_rt(self, text: str) -> str:
        """Puts a script that stands for `rt`, and returns a PATH on which it comes first."""
        os.chmod(self.put("bin/rt", text), 0o755)
        return f"{self.folder}/bin:{os.environ['PATH']}"

    def path_without_rt(self) -> str:
        """A PATH with all of the usual programs but `rt`."""
        os.makedirs(f"{self.folder}/usual", exist_ok=True)
        for folder in reversed(os.environ["PATH"].split(":")):
            for name in os.listdir(folder) if os.path.isdir(folder) else ():
                link = f"{self.folder}/usual/{name}"
                if name != "rt" and os.access(f"{folder}/{name}", os.X_OK):
                    if os.path.lexists(link):
                        os.remove(link)
                    os.symlink(f"{folder}/{name}", link)
        return f"{self.folder}/usual"
