"""What the tools share: their arguments, the programs that they try, a library that is loaded before a program, and their last line."""

from __future__ import annotations

import argparse
import json
import os
import shutil
import subprocess
from typing import Optional

TOP = os.path.dirname(os.path.dirname(os.path.abspath(__file__)))
PROGRAM = f"{TOP}/crates/tlut/out/tlut"
PROGRAMS = [PROGRAM, f"{TOP}/crates/tlut_compact/out/tlut_compact"]
MEASURED = f"{TOP}/crates/bench_mapping/out/bench_mapping"


def words(text: Optional[str]) -> argparse.ArgumentParser:
    """The parser of a tool, whose help is its text."""
    return argparse.ArgumentParser(description=text, formatter_class=argparse.RawDescriptionHelpFormatter)


def saving(parser: argparse.ArgumentParser) -> argparse.ArgumentParser:
    """A parser with the option of a tool that measures: where its figures go too."""
    parser.add_argument("--json", metavar="FILE", type=path_of, help="write the figures to FILE too, docs/figures/NAME.json for the pages")
    return parser


def save(path: Optional[str], found: object) -> None:
    """Writes figures as JSON, if a file was given."""
    if path:
        with open(path, "w", encoding="utf-8") as file:
            file.write(json.dumps(found, indent=1, ensure_ascii=False) + "\n")


def path_of(word: str) -> str:
    """The path that a tool was given, from the root."""
    return os.path.abspath(word)


def is_compact(program: str) -> bool:
    """Whether a program is the second one, by the name of its file."""
    return "compact" in os.path.basename(program)


def one_program(text: Optional[str], program: str = PROGRAM) -> str:
    """The program that a tool was given as its only word, or this one."""
    parser = words(text)
    shown = os.path.relpath(program, TOP)
    parser.add_argument("program", metavar="PROGRAM", nargs="?", type=path_of, default=program, help=f"the program that is tried (default: {shown})")
    found: str = parser.parse_args().program
    return found


def some_programs(text: Optional[str], programs: list[str]) -> list[str]:
    """The programs that a tool was given as its only arguments, or these."""
    parser = words(text)
    shown = ", ".join(os.path.relpath(it, TOP) for it in programs)
    parser.add_argument("programs", metavar="PROGRAM", nargs="*", type=path_of, help=f"a program that is tried (default: {shown})")
    return parser.parse_args().programs or programs


def has_compiler() -> bool:
    """Whether there is a C compiler."""
    return shutil.which("cc") is not None


def preloaded(text: str, folder: str) -> str:
    """Compiles a library, from its text in C, that is loaded before a program by LD_PRELOAD. Returns its path."""
    source, library = f"{folder}/preloaded.c", f"{folder}/preloaded.so"
    with open(source, "w", encoding="utf-8") as file:
        file.write(text)
    subprocess.run(["cc", "-O1", "-shared", "-fPIC", "-o", library, source, "-ldl"], check=True)
    return library


def summary(passed: int, failed: int) -> int:
    """Prints the last line of a tool that tries something, and returns the exit status."""
    print(f"{passed} passed, {failed} failed")
    return 1 if failed else 0
