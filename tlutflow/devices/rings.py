"""What the LUT sites of a mapped circuit hold on a Xilinx device: CFGLUT5, whose 32 bits are a shift register, pairs of constant LUTs in
a LUT6_2, and constant LUTs alone.

A CFGLUT5 with its last input at 0 holds one function of up to five leaves, and with it at 1 two functions of the first four: the lower 16
bits are that of O5, and the upper 16 that of O6. A LUT of six leaves takes two CFGLUT5 and the multiplexer after them.
"""

from __future__ import annotations

from dataclasses import dataclass
from functools import cached_property
from typing import Iterable, Optional

from tlutflow.circuit import Circuit, Lut
from tlutflow.devices.sites import FIXED_PAIR, REWRITABLE_PAIR, Node, pairs_of
from tlutflow.verilog.store import Store

HALF = 32
# How many CFGLUT5 a slice has; they share one clock and one enable.
SLICE = 4


@dataclass(frozen=True)
class Unit:
    """A CFGLUT5: the LUTs that it holds, one, or two on O5 and O6; which half of a LUT of six leaves it is; its leaves; and the address
    of the bit at each of its places, None where the place is never looked up."""

    luts: tuple[int, ...]
    half: int
    leaves: tuple[str, ...]
    places: tuple[Optional[int], ...]

    @property
    def is_pair(self) -> bool:
        """Whether it holds two functions."""
        return len(self.luts) == 2


def places_over(lut: Lut, leaves: tuple[str, ...], digits: int) -> list[Optional[int]]:
    """The address that a LUT has for each number of this many digits over some leaves, of which its own are some. None for a number that
    has a digit without a leaf."""
    own = [leaves.index(leaf) for leaf in lut.leaves]
    found: list[Optional[int]] = []
    for number in range(1 << digits):
        index = sum((number >> place & 1) << digit for digit, place in enumerate(own))
        found.append(None if number >> len(leaves) else lut.first + index)
    return found


def together(*luts: Lut) -> tuple[str, ...]:
    """The leaves of some LUTs, each once."""
    return tuple(dict.fromkeys(leaf for lut in luts for leaf in lut.leaves))


def half_addresses(lut: Lut, half: int) -> range:
    """The addresses of the bits of a half of a LUT; one of up to five leaves is half 0."""
    return lut.addresses[half * HALF : (half + 1) * HALF]


class Layout:
    """The sites of a circuit. `rings` has the CFGLUT5 of each site that can be rewritten, two for a LUT of six leaves of which both halves
    change, and `fixed_pairs` the constant LUTs that share a site."""

    def __init__(self, circuit: Circuit, store: Store, paired: bool):
        self.circuit, self.store = circuit, store
        self.changing = {circuit.lut_at[address] for address in store.places}
        pairs = self.pairs() if paired else []
        self.partner = {one: other for pair in pairs for one, other in (pair, pair[::-1])}
        self.fixed_pairs = [pair for pair in pairs if not self.changing & set(pair)]
        self.rings = [self.ring(number) for number in range(len(circuit.luts)) if self.begins_ring(number)]
        self.ring_of = {lut: place for place, ring in enumerate(self.rings) for lut in ring[0].luts}

    def pairs(self) -> list[tuple[int, int]]:
        """The LUTs that share a site, two by two."""
        nodes = []
        for number, lut in enumerate(self.circuit.luts):
            most = REWRITABLE_PAIR if number in self.changing else FIXED_PAIR
            # A constant is no LUT.
            fits = len(lut.leaves) <= most and (bool(lut.leaves) or number in self.changing)
            nodes.append(Node(frozenset(lut.leaves), (lut.net,), most if fits else 0))
        return pairs_of(nodes)

    def begins_ring(self, number: int) -> bool:
        """Whether a LUT is the first one of a site that can be rewritten."""
        other = self.partner.get(number, number)
        return number <= other and bool(self.changing & {number, other})

    def ring(self, number: int) -> list[Unit]:
        """The CFGLUT5 of a site."""
        luts = self.circuit.luts
        if number in self.partner:
            both = number, self.partner[number]
            leaves = together(*(luts[it] for it in both))
            return [Unit(both, 0, leaves, tuple(address for it in both for address in places_over(luts[it], leaves, 4)))]
        if len(luts[number].leaves) < 6:
            leaves = tuple(luts[number].leaves)
            return [Unit((number,), 0, leaves, tuple(places_over(luts[number], leaves, 5)))]
        leaves = tuple(luts[number].leaves[:5])
        halves = [half for half in range(2) if any(it in self.store.places for it in half_addresses(luts[number], half))]
        return [Unit((number,), half, leaves, tuple(half_addresses(luts[number], half))) for half in halves]

    @cached_property
    def places(self) -> dict[int, list[tuple[int, int]]]:
        """For each address that a CFGLUT5 holds the number of its ring, and its places in it."""
        found: dict[int, list[tuple[int, int]]] = {}
        for number, ring in enumerate(self.rings):
            for place, address in enumerate(address for unit in ring for address in unit.places):
                if address is not None:
                    found.setdefault(address, []).append((number, place))
        return found

    @property
    def units(self) -> list[Unit]:
        """All CFGLUT5, in the order of their rings."""
        return [unit for ring in self.rings for unit in ring]

    @property
    def sites(self) -> int:
        """How many LUT sites the circuit takes, without its port."""
        return len(self.units) + sum(self.fixed_sites(number) for number in range(len(self.circuit.luts)))

    def fixed_sites(self, number: int) -> int:
        """How many sites a LUT takes that hold only constants; the second one of a pair takes none."""
        lut = self.circuit.luts[number]
        if number in self.ring_of:
            return (2 - len(self.rings[self.ring_of[number]])) if len(lut.leaves) == 6 else 0
        return int(bool(lut.leaves) and self.partner.get(number, number) >= number)

    def slices(self, groups: Iterable[int]) -> int:
        """How many slices hold the CFGLUT5, if so many rings after one another share an enable."""
        found, first = 0, 0
        for many in groups:
            found += -(-sum(len(ring) for ring in self.rings[first : first + many]) // SLICE)
            first += many
        return found
