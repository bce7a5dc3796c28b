"""Where a mapped circuit in Verilog keeps its configuration bits: cells, and what each bit is of them.

A bit is a constant, or it is read from a cell. A cell is a flip-flop that the configuration port writes. Which bits have cells is a choice:
those that read a parameter, each with a cell of its own (`changing`); those with one cell for all bits of the same function (`distinct`); or
all bits (`all`), so that each can be written by itself, as a fault does.
"""

from __future__ import annotations

from dataclasses import dataclass
from typing import Optional

from tlutflow.faults import Fault
from tlutflow.pack import Pack

KINDS = ("changing", "distinct", "all")


@dataclass(frozen=True)
class Store:
    """The cells by the addresses whose bits they hold, and for each address that has a cell the cell and whether its bit is the
    complement. `start` has the bits by their addresses under the pack's values."""

    cells: list[int]
    places: dict[int, tuple[int, int]]
    start: list[int]

    @property
    def size(self) -> int:
        """The number of cells."""
        return len(self.cells)

    def values(self, configuration: list[int]) -> list[int]:
        """The values of the cells under a configuration."""
        return [configuration[address] for address in self.cells]

    def shared(self, address: int) -> bool:
        """Whether other bits have the same cell."""
        cell = self.places[address][0]
        return sum(place[0] == cell for place in self.places.values()) > 1


def cell_key(kind: str, address: int, literal: int) -> Optional[int]:
    """What the bits of one cell have in common, or None for a bit without a cell."""
    if kind == "all":
        return address
    if literal < 2:
        return None
    return literal >> 1 if kind == "distinct" else address


def store_of(pack: Pack, kind: str) -> Store:
    """The cells of a pack, ascending by their first addresses."""
    cells: list[int] = []
    places: dict[int, tuple[int, int]] = {}
    known: dict[int, int] = {}
    for address, literal in enumerate(pack.bits):
        key = cell_key(kind, address, literal)
        if key is None:
            continue
        if key not in known:
            known[key] = len(cells)
            cells.append(address)
        first = cells[known[key]]
        places[address] = known[key], (literal ^ pack.bits[first]) & 1 if kind == "distinct" else 0
    return Store(cells, places, pack.configuration())


def regions_of(store: Store, bits: int, regions: int) -> list[list[int]]:
    """The cells of each chain: those of the addresses that a port of `tlut run` serves. In each the cells that start at 0 come first, so that
    a device whose flip-flops can't start at 1 needs one inverter a chain."""
    span = max(1, -(-bits // regions))
    parts: list[list[int]] = [[] for _ in range(regions)]
    for cell, address in enumerate(store.cells):
        parts[address // span].append(cell)
    return [sorted(part, key=lambda cell: store.start[store.cells[cell]]) for part in parts]


def check_writes(store: Store, writes: list[tuple[int, int]], configuration: list[int], is_fault: bool, text: str) -> None:
    """Refuses writes that the cells can't take: `configuration` has the bits before them, and an upset is a fault of one bit."""
    for address, bit in writes:
        if address >= len(store.start):
            raise Fault(f"`{text[:60]}`: there are {len(store.start)} configuration bits, so it belongs to another circuit")
        if address not in store.places and bit != configuration[address]:
            raise Fault(f"`{text[:60]}`: bit {address} depends on no parameter, so it is constant in this circuit; with --bits all it can be written")
        if is_fault and store.shared(address):
            raise Fault(f"`{text[:60]}`: bit {address} shares its flip-flop with other bits; --bits changing gives each bit its own")
