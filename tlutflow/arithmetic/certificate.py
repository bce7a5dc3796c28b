"""The certificate of a sum: the steps by which its gates add what the cell adds. Nets are those of the module as it is written; a net with ~ is
inverted, and 0 and 1 are constants."""

from __future__ import annotations

from dataclasses import asdict, dataclass
from typing import Any


@dataclass(frozen=True)
class Counter:
    """Bits of the weight 2^place and of twice that weight, which became the bits of their number, the lowest first. A bit that is too heavy for
    the width of its sum is left out, and is an empty name."""

    place: int
    low: tuple[str, ...]
    high: tuple[str, ...]
    outputs: tuple[str, ...]


@dataclass(frozen=True)
class CarryNode:
    """A node of a prefix adder: whether a span of places generates a carry, and whether it propagates one; with the numbers of the nodes of its
    upper and lower half, or -1 twice for the place `low` itself."""

    low: int
    high: int
    generate: str
    propagate: str
    upper: int = -1
    lower: int = -1


@dataclass(frozen=True)
class Adder:
    """Two words that a prefix adder adds: their bits, the nodes by which each carry is made, and for each place but the first the number of the
    node whose span ends below it and begins at 0. The outputs are the bits of the sum."""

    left: tuple[str, ...]
    right: tuple[str, ...]
    nodes: tuple[CarryNode, ...]
    carries: tuple[int, ...]
    outputs: tuple[str, ...]


@dataclass(frozen=True)
class Addend:
    """What a table's entry has if some literals of data bits are 1: a weight times a product of parameters."""

    condition: tuple[str, ...]
    parameters: tuple[str, ...]
    weight: int


@dataclass(frozen=True)
class Table:
    """A table: what its entries are the sums of, its bits, and the counters that made them."""

    addends: tuple[Addend, ...]
    bits: tuple[str, ...]
    counters: tuple[Counter, ...]


@dataclass(frozen=True)
class Certificate:
    """The certificate of a module: the cell that it stands for, how many bits of the sum are added, whether the highest one of these is the sign
    of all bits above it, which are 0 otherwise, the tables, and the steps after them in the order in which they were made. Bits that are in no
    step are products of data bits, constants, or inputs."""

    cell: str
    module: str
    width: int
    is_signed: bool
    tables: tuple[Table, ...]
    counters: tuple[Counter, ...]
    adder: Adder

    def json(self) -> dict[str, Any]:
        """The certificate as JSON has it."""
        return asdict(self)
