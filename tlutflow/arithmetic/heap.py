"""A heap of bits with weights, which compressors reduce to two bits a weight.

Each compressor counts bits of one weight, and of the next one, and is priced by the LUTs of K inputs that it takes for each bit that it
removes. A bit that is a product of data bits may be absorbed: a compressor that has inputs left reads its factors instead of it.
"""

from __future__ import annotations

from dataclasses import dataclass
from typing import Iterator, Optional

from tlutflow.arithmetic.certificate import Counter
from tlutflow.arithmetic.gates import ONE, ZERO, Sheet


@dataclass(frozen=True, order=True)
class HeapBit:
    """A bit: the level at which it is ready, its net, and the nets that a LUT reads which absorbs it."""

    level: int
    net: str
    leaves: tuple[str, ...] = ()

    @property
    def width(self) -> int:
        """How many inputs of a LUT it takes if it is absorbed."""
        return max(1, len(self.leaves))


@dataclass(frozen=True)
class Shape:
    """A compressor: how many bits of a weight it counts, how many of the next one, and its outputs."""

    low: int
    high: int
    outputs: int

    @property
    def removed(self) -> int:
        """How many bits it removes."""
        return self.low + self.high - self.outputs


FULL_ADDER = Shape(3, 0, 2)
# The compressors for each K. A LUT of two or three inputs takes an output of a full adder at most.
SHAPES = {
    2: (FULL_ADDER,),
    3: (FULL_ADDER,),
    4: (FULL_ADDER,),
    5: (Shape(5, 0, 3), Shape(3, 2, 3), FULL_ADDER),
    6: (Shape(6, 0, 3), Shape(5, 1, 3), Shape(5, 0, 3), Shape(3, 2, 3), FULL_ADDER),
}


@dataclass(frozen=True)
class Choice:
    """A compressor at a weight: the bits that it takes, how many of them it absorbs, and what it costs for each bit that it removes."""

    place: int
    low: tuple[HeapBit, ...]
    high: tuple[HeapBit, ...]
    price: float
    ready: int


class Heap:
    """Bits with weights that are to be added, modulo 2^width."""

    def __init__(self, sheet: Sheet, width: int):
        self.sheet, self.width = sheet, width
        self.columns: list[list[HeapBit]] = [[] for _ in range(width)]
        self.counters: list[Counter] = []

    def add(self, net: str, place: int, level: int = 0, leaves: tuple[str, ...] = ()) -> None:
        """Adds a bit."""
        if net != ZERO and place < self.width:
            self.columns[place].append(HeapBit(level, net, leaves))

    def add_constant(self, value: int) -> None:
        """Adds a constant."""
        for place in range(self.width):
            if value >> place & 1:
                self.add(ONE, place)

    def count(self, place: int, low: list[HeapBit], high: list[HeapBit]) -> None:
        """Replaces bits of a weight and of the next one by the bits of their number."""
        level = 1 + max(it.level for it in [*low, *high])
        self.columns[place] = without(self.columns[place], low)
        if high:
            self.columns[place + 1] = without(self.columns[place + 1], high)
        nets = number_of(self.sheet, [it.net for it in low], [it.net for it in high])
        shown = tuple(net if place + at < self.width else "" for at, net in enumerate(nets))
        self.counters.append(Counter(place, tuple(it.net for it in low), tuple(it.net for it in high), shown))
        for at, net in enumerate(nets):
            self.add(net, place + at, level)


def without(column: list[HeapBit], taken: list[HeapBit]) -> list[HeapBit]:
    """A column without some of its bits, each once."""
    left = list(column)
    for it in taken:
        left.remove(it)
    return left


def number_of(sheet: Sheet, low: list[str], high: list[str]) -> list[str]:
    """The number of bits of a weight and of twice that weight, by full adders."""
    found, here, above = [], list(low), list(high)
    while here:
        while len(here) > 1:
            total, carry = sheet.full_adder(here[0], here[1], here[2] if len(here) > 2 else ZERO)
            here = [*here[3:], total]
            above.append(carry)
        found.append(here[0])
        here, above = above, []
    return found


def compress(heap: Heap, size: int) -> None:
    """Compressors for LUTs of so many inputs until no weight has more than two bits, the cheapest one first, and of several the one that is
    ready first."""
    while max(map(len, heap.columns), default=0) > 2:
        best = min(choices(heap, size), key=lambda it: (it.price, it.ready, it.place), default=None)
        if best is None:
            return
        heap.count(best.place, list(best.low), list(best.high))


def choices(heap: Heap, size: int) -> Iterator[Choice]:
    """The compressors that fit at each weight."""
    for place, column in enumerate(heap.columns):
        above = heap.columns[place + 1] if place + 1 < heap.width else []
        for shape in SHAPES[size]:
            if len(column) >= max(3, shape.low) and len(above) >= shape.high:
                for are_absorbed in (True, False):
                    found = choice_of(place, column, above, shape, size, are_absorbed)
                    if found is not None:
                        yield found


def choice_of(place: int, column: list[HeapBit], above: list[HeapBit], shape: Shape, size: int, are_absorbed: bool) -> Optional[Choice]:
    """A compressor that takes the earliest bits, or first those that it can absorb."""

    def order(it: HeapBit) -> tuple[bool, int, int, str]:
        return (not (are_absorbed and len(it.leaves) > 1), it.level, it.width, it.net)

    low, high = sorted(column, key=order)[: shape.low], sorted(above, key=order)[: shape.high]
    taken = [*low, *high]
    absorbed = absorbed_of(taken, size)
    made = sum(len(it.leaves) > 1 for it in taken)
    if are_absorbed and not absorbed:
        return None
    # A bit that isn't absorbed takes a LUT of its own, which it would take at the end too.
    price = (shape.outputs - absorbed) / shape.removed
    ready = max(it.level + (len(it.leaves) > 1 and made > absorbed) for it in taken)
    return Choice(place, tuple(low), tuple(high), price, ready)


def absorbed_of(taken: list[HeapBit], size: int) -> int:
    """How many products of data bits a compressor of these bits can absorb."""
    leaves = {it.net for it in taken if len(it.leaves) <= 1 and it.net != ONE}
    products = sorted((it for it in taken if len(it.leaves) > 1), key=lambda it: it.width)
    many = 0
    for at, it in enumerate(products):
        if len(leaves | set(it.leaves)) + len(products) - at - 1 > size:
            break
        leaves |= set(it.leaves)
        many += 1
    return many
