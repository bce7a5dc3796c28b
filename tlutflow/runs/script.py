"""Scripts: the events that a run plays."""

from __future__ import annotations

from dataclasses import dataclass

from tlutflow.faults import Fault
from tlutflow.text import Line, logical_lines, read_text

WORDS = ("set", "cycle", "upset", "scrub", "image")
# The events of a script of `tlut pace`.
PACED_WORDS = ("ask", "tick")


@dataclass(frozen=True)
class Event:
    """An event of a script of `run`, `bits` or `pace`: its word, what a set or an ask gives the parameters, or a cycle or a tick the regular
    inputs, and the address of an upset."""

    word: str
    values: dict[str, int]
    address: int = 0


def is_line_of(event: Event, word: str) -> bool:
    """Whether an event can print a line with this word: a tick steps, or waits while bits are written."""
    return word in ("cycle", "wait") if event.word == "tick" else word == event.word


def read_script(path: str, regular: list[str]) -> list[Event]:
    """The events of a file; `regular` are the regular inputs in their order."""
    return parse_script(read_text(path), path, regular)


def parse_script(text: str, file: str, regular: list[str]) -> list[Event]:
    """The events of a text; `file` is its name in a fault."""
    events = []
    for line in logical_lines(text):
        try:
            events.append(event_of(line, regular))
        except ValueError:
            raise Fault(f"{file}: line {line.number} isn't an event for this netlist; ./tlut reports what is wrong with it") from None
    return events


def event_of(line: Line, regular: list[str]) -> Event:
    """The event of a line."""
    word, others = line.tokens[0], line.tokens[1:]
    if word not in WORDS and word not in PACED_WORDS:
        raise ValueError
    if word in ("set", "ask"):
        pairs = [it.rpartition("=") for it in others]
        return Event(word, {name: int(bit) for name, _, bit in pairs})
    if word in ("cycle", "tick"):
        digits = "" if others == ["-"] else others[0] if len(others) == 1 else "?"
        if len(digits) != len(regular):
            raise ValueError
        return Event(word, {name: int(bit) for name, bit in zip(regular, digits)})
    if word == "upset":
        (address,) = others
        return Event(word, {}, int(address))
    return Event(word, {})


def bits_text(bits: list[int]) -> str:
    """Bits as in a script and an output: a string of digits, or `-` if there are none."""
    return "".join(str(bit) for bit in bits) or "-"
