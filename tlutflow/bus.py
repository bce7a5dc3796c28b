"""A bus, and numbers as its values."""

from __future__ import annotations

import re
from dataclasses import dataclass
from typing import Optional

from tlutflow.faults import Fault
from tlutflow.text import count

SIZED = re.compile(r"[0-9]*'[sS]?([bodhBODH])([0-9a-fA-F_]+)")
# Values of more digits than this are shown in hexadecimal.
WIDE = 32
BASES = {"b": 2, "o": 8, "d": 10, "h": 16}


@dataclass(frozen=True)
class Bus:
    """A bus, or a net that stands for itself: its name, its nets from the lowest digit on, the lowest index of its nets or None, whether its
    lowest digit has the highest index, as that of `[0:3]`, and whether its values are signed."""

    name: str
    nets: tuple[str, ...]
    low: Optional[int] = None
    is_turned: bool = False
    is_signed: bool = False

    @property
    def width(self) -> int:
        """How many nets it has."""
        return len(self.nets)

    @property
    def span(self) -> str:
        """The range of its indices in Verilog; empty for a net that isn't part of a bus."""
        if self.low is None:
            return ""
        ends = self.low + self.width - 1, self.low
        return f"[{ends[1]}:{ends[0]}]" if self.is_turned else f"[{ends[0]}:{ends[1]}]"

    @property
    def title(self) -> str:
        """The name with the range of its indices."""
        return self.name + self.span

    def index(self, place: int) -> int:
        """The index of the net at a place."""
        assert self.low is not None
        return self.low + (self.width - 1 - place if self.is_turned else place)

    def digits(self, value: int) -> dict[str, int]:
        """The bit of each net under a value, which may be negative."""
        return {net: value >> place & 1 for place, net in enumerate(self.nets)}

    def number(self, bits: dict[str, int], signed: bool = False) -> int:
        """The value that bits of nets are; with `signed` as a two's complement."""
        value = sum(bits[net] << place for place, net in enumerate(self.nets))
        return value - (1 << self.width) if (signed or self.is_signed) and bits[self.nets[-1]] else value

    def text(self, value: int, is_hex: bool = False) -> str:
        """A value as it is shown: decimal, or hexadecimal if that is wanted or the bus is wide."""
        return hex(value) if is_hex or self.width > WIDE else str(value)

    def value_of(self, word: str) -> int:
        """The value that an argument states, if it fits."""
        value = parse_number(word)
        if value is None:
            raise Fault(f"{self.name}={word}: the value isn't of one of the forms 18, -3, 0x12, 0b10010, 5'h12")
        if not -(1 << self.width - 1) <= value < 1 << self.width:
            low, high = -(1 << self.width - 1), (1 << self.width) - 1
            raise Fault(f"{self.name}={word}: {self.title} has {count(self.width, 'bit')}, so its values are {self.text(low)} to {self.text(high)}")
        return value


def parse_number(word: str) -> Optional[int]:
    """The number that a word is in the syntax of Python or Verilog, or None."""
    sized = SIZED.fullmatch(word.lstrip("-"))
    try:
        if sized:
            value = int(sized[2], BASES[sized[1].lower()])
            return -value if word.startswith("-") else value
        return int(word, 0)
    except ValueError:
        return None
