#!/usr/bin/env python3
"""Runs the commands that README.md and docs/ show, and compares what they print and write with what is shown.

    python3 tools/doc_blocks.py

It runs each block ```sh that has a line `./tlut ..` or `./flow ..`, in a folder of its own in which `./tlut`, `./flow` and `examples`
are those of the repository. Lines that begin with `rt` are skipped. If a line needs a tool that isn't installed, the block and the plain
ones after it are skipped, and the run says so. Each plain block of README.md, and each one of docs/ after such a command, must occur
line by line in what the last command before it printed, in a file that a command of the page wrote, or in a source of examples/: never
in a text that an example only expects.

The last line says how many commands and blocks there were, and the exit status is 0 if all are as shown.
"""

from __future__ import annotations

import os
import re
import shutil
import subprocess
import sys
import tempfile
from typing import Iterator, Optional

import shared
from shared import TOP

# What some lines call for.
ABC = ("yosys-abc", "berkeley-abc", "abc")
TOOLS = [
    ("./flow verilog", ("yosys",)),
    ("./flow device", ("yosys",)),
    ("./flow check", ABC),
    ("./flow compare", ABC),
    (".svg", ("dot",)),
    ("--simulate", ("iverilog",)),
    ("make ", ("make",)),
]
BLOCK = re.compile(r"^```(\w*)\n(.*?)^```$", re.MULTILINE | re.DOTALL)


def blocks_of(page: str) -> Iterator[tuple[int, str, list[str]]]:
    """The blocks of a page: the number of the first line, the kind, and the lines."""
    with open(f"{TOP}/{page}", encoding="utf-8") as file:
        text = file.read()
    for found in BLOCK.finditer(text):
        yield text.count("\n", 0, found.start()) + 1, found[1], found[2].splitlines()


def texts_in(folder: str) -> Iterator[list[str]]:
    """The lines of each file in a folder and below it that is text, and is no expected text of an example."""
    for at, _, names in os.walk(folder):
        for name in names:
            if name.startswith("expected"):
                continue
            try:
                with open(f"{at}/{name}", encoding="utf-8") as file:
                    yield file.read().splitlines()
            except UnicodeDecodeError:
                pass


def stands_in(block: list[str], lines: list[str]) -> bool:
    """Whether the lines of a block are consecutive lines of these."""
    return any(lines[i : i + len(block)] == block for i in range(len(lines) - len(block) + 1))


def missing_tool(lines: list[str]) -> Optional[str]:
    """The first tool that some lines call for and that isn't there, or None."""
    for part, names in TOOLS:
        if any(part in line for line in lines) and not any(shutil.which(name) for name in names):
            return names[0]
    return None


class Page:
    """A page while its blocks are looked at: the folder where its commands run, and what the last of them printed, if there was one."""

    def __init__(self, name: str, folder: str) -> None:
        self.name, self.folder, self.failed = name, folder, 0
        self.printed: Optional[list[str]] = None
        os.symlink(f"{TOP}/examples", f"{folder}/examples")
        for program in ("tlut", "flow"):
            with open(f"{folder}/{program}", "w", encoding="utf-8") as file:
                file.write(f'#!/bin/sh\nexec "{TOP}/{program}" "$@"\n')
            os.chmod(f"{folder}/{program}", 0o755)

    def say(self, line: int, what: str) -> None:
        print(f"{self.name}:{line}: {what}")
        self.failed += 1

    def run(self, line: int, commands: list[str]) -> None:
        ran = subprocess.run(["bash", "-e"], input="\n".join(commands), cwd=self.folder, capture_output=True, text=True)
        self.printed = ran.stdout.splitlines()
        if ran.returncode:
            self.say(line, f"the command ended with status {ran.returncode}: {ran.stderr[-300:]}")

    def is_shown(self, block: list[str]) -> bool:
        places = [self.printed or [], *texts_in(self.folder), *texts_in(f"{TOP}/examples/")]
        return any(stands_in(block, lines) for lines in places)


def look_at(name: str, page: Page) -> tuple[int, int]:
    """Runs the commands of a page and looks for its blocks. Returns how many commands and blocks there were."""
    commands = blocks = 0
    missing = None
    for line, kind, lines in blocks_of(name):
        if kind == "sh" and any(it.startswith(("./tlut", "./flow")) for it in lines):
            missing = missing_tool(lines)
            if missing:
                print(f"{name}:{line}: left out, since {missing} isn't there")
                continue
            commands += 1
            page.run(line, [it for it in lines if not it.startswith("rt ")])
        elif not kind and not missing and (name == "README.md" or page.printed is not None):
            blocks += 1
            if not page.is_shown(lines):
                page.say(line, "the command before it prints no such lines, no command of the page writes them, and no example has them")
    return commands, blocks


def main() -> int:
    shared.words(__doc__).parse_args()
    pages = ["README.md", *sorted(f"docs/{name}" for name in os.listdir(f"{TOP}/docs") if name.endswith(".md"))]
    commands = blocks = failed = 0
    subprocess.run([f"{TOP}/tlut"], stdout=subprocess.DEVNULL, stderr=subprocess.DEVNULL)
    for name in pages:
        with tempfile.TemporaryDirectory(prefix="doc-blocks-") as folder:
            page = Page(name, folder)
            more = look_at(name, page)
            commands, blocks, failed = commands + more[0], blocks + more[1], failed + page.failed
    print(f"{commands} commands and {blocks} blocks of README and docs: {'all are as shown' if not failed else f'{failed} ARE NOT AS SHOWN'}")
    return 1 if failed else 0


if __name__ == "__main__":
    sys.exit(main())
