"""The lines that `tlut` prints for a run or for a pack."""

from __future__ import annotations

import re
from dataclasses import dataclass
from typing import Optional

from tlutflow.faults import Fault
from tlutflow.text import physical_lines

HEADER = re.compile(r"luts (\d{1,18}) bits (\d{1,18}) depth (\d{1,18})")
PACK_HEADER = re.compile(r"bits (\d{1,18})")
WRITES = re.compile(r"(set|scrub|wait) (\d{1,18})((?: \d{1,18}=[01])*)")
CYCLE = re.compile(r"cycle ([01]+|-) ([01]+|-)")
UPSET = re.compile(r"upset (\d{1,18}=[01])")
ASK = re.compile(r"ask \d{1,18}")
IMAGE = re.compile(r"image ([01]+|-)")


@dataclass(frozen=True)
class Header:
    """The first line and its parts: the numbers of LUTs and bits, and the depth. That of a pack has only bits."""

    text: str
    bits: int
    tables: Optional[int] = None
    depth: Optional[int] = None


@dataclass(frozen=True)
class Played:
    """The line of an event, whole and in its parts."""

    text: str
    word: str
    writes: list[tuple[int, int]]
    outputs: str = ""
    states: str = ""


@dataclass(frozen=True)
class Output:
    """What a run printed."""

    header: Optional[Header]
    events: list[Played]


def parse_header(line: str) -> Optional[Header]:
    """The header that a line is, or None."""
    found = HEADER.fullmatch(line)
    if found:
        return Header(line, int(found[2]), int(found[1]), int(found[3]))
    found = PACK_HEADER.fullmatch(line)
    return Header(line, int(found[1])) if found else None


def digits_of(text: str) -> str:
    """A string of digits, empty for `-`."""
    return "" if text == "-" else text


def writes_of(text: str) -> list[tuple[int, int]]:
    """The writes in words `ADDRESS=BIT`."""
    pairs = [word.split("=") for word in text.split()]
    return [(int(address), int(bit)) for address, bit in pairs]


def parse_event(line: str) -> Optional[Played]:
    """The line of an event, or None."""
    found = CYCLE.fullmatch(line)
    if found:
        return Played(line, "cycle", [], digits_of(found[1]), digits_of(found[2]))
    found = WRITES.fullmatch(line)
    if found and len(writes_of(found[3])) == int(found[2]):
        return Played(line, found[1], writes_of(found[3]))
    found = UPSET.fullmatch(line)
    if found:
        return Played(line, "upset", writes_of(found[1]))
    if ASK.fullmatch(line):
        return Played(line, "ask", [])
    return Played(line, "image", []) if IMAGE.fullmatch(line) else None


def parse_output(text: str, file: str) -> Output:
    """The lines of a text; `file` is its name in a fault."""
    header, events = None, []
    for number, line in enumerate(physical_lines(text), 1):
        if not line:
            continue
        event = parse_event(line)
        if event is not None:
            events.append(event)
        elif header is None and not events and parse_header(line):
            header = parse_header(line)
        else:
            raise Fault(f"{file}: line {number} isn't a line that tlut prints for a run: {line[:60]}")
    return Output(header, events)
