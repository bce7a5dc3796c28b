"""Reading texts: files, logical lines and their tokens.

The readers take every text that `tlut` accepts. What `tlut` refuses they may take, or refuse by a line of their own.
"""

from __future__ import annotations

import sys
from dataclasses import dataclass
from typing import Iterator

from tlutflow.faults import Fault

# Names may have any byte from 128 on, so bytes that are no UTF-8 are kept as they are.
ENCODING = {"encoding": "utf-8", "errors": "surrogateescape"}


@dataclass(frozen=True)
class Line:
    """A logical line: the number of its first physical line, counted from 1, and its tokens, at least one."""

    number: int
    tokens: list[str]


def read_text(path: str) -> str:
    """The text of a file."""
    return read_bytes(path).decode(**ENCODING)


def read_bytes(path: str) -> bytes:
    """The bytes of a file."""
    try:
        with open(path, "rb") as file:
            return file.read()
    except OSError as error:
        raise Fault(f"{path}: {error.strerror or error}") from None


def write_text(path: str, text: str) -> None:
    """Creates a file or overwrites it."""
    try:
        with open(path, "w", newline="", encoding="utf-8", errors="surrogateescape") as file:
            file.write(text)
    except OSError as error:
        raise Fault(f"{path}: {error.strerror or error}") from None


def read_input() -> str:
    """The text of standard input."""
    return sys.stdin.buffer.read().decode(**ENCODING)


def physical_lines(text: str) -> list[str]:
    """The text between two LF, before the first or after the last. A CR directly before an LF is dropped."""
    return text.replace("\r\n", "\n").split("\n")


def tokens_of(text: str) -> list[str]:
    """The runs of characters between blanks and tabs."""
    return [token for token in text.replace("\t", " ").split(" ") if token]


def logical_lines(text: str) -> Iterator[Line]:
    """The logical lines that have tokens: comments are taken off, and continued lines are joined."""
    start, parts = 0, []
    lines = physical_lines(text)
    for number, physical in enumerate(lines, 1):
        bare = physical.split("#", 1)[0].rstrip(" \t")
        start = start or number
        goes_on = bare.endswith("\\")
        parts.append(bare[:-1] if goes_on else bare)
        if goes_on and number < len(lines):
            continue
        tokens = tokens_of(" ".join(parts) if len(parts) > 1 else parts[0])
        if tokens:
            yield Line(start, tokens)
        start, parts = 0, []


def count(number: int, word: str) -> str:
    """A number with a noun in the singular or plural."""
    return f"{number} {word}{'' if number == 1 else 's'}"
