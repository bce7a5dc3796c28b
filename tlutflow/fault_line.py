"""The fault lines of `tlut`."""

from __future__ import annotations

import re
from dataclasses import dataclass
from typing import Optional

CODED = re.compile(r"tlut: (.*?): ([A-Z][0-9]+) ([A-Z][A-Za-z]*)( .*)?")
NUMBERED = re.compile(r" (?:model (\S+) )?line ([0-9]{1,18})(?![0-9])(.*)")
READ = re.compile(r"tlut: (.*): read failed")


@dataclass(frozen=True)
class FaultLine:
    """A fault line in its parts: the file, the code and its word, the details, the number of a line, and the text after it. A line
    without a code has its own words as the word."""

    word: str
    file: str = ""
    code: str = ""
    details: str = ""
    line: Optional[int] = None
    names: str = ""


def parse_fault(line: str) -> Optional[FaultLine]:
    """The parts of a fault line, or None for another line."""
    coded = CODED.fullmatch(line)
    if coded:
        details = coded[4] or ""
        numbered = NUMBERED.fullmatch(details)
        number = int(numbered[2]) if numbered else None
        names = numbered[3] if numbered else details
        return FaultLine(coded[3], coded[1], coded[2], details.strip(), number, names.strip())
    read = READ.fullmatch(line)
    if read:
        return FaultLine("read failed", read[1])
    for word in ("usage", "write failed", "port failed", "out of memory"):
        if line.startswith(f"tlut: {word}"):
            return FaultLine(word)
    return None
