"""The last addition: a heap with at most two bits a weight, by carries from place to place or by a prefix adder."""

from __future__ import annotations

from enum import Enum

from tlutflow.arithmetic.certificate import Adder, CarryNode
from tlutflow.arithmetic.gates import ZERO, Sheet
from tlutflow.arithmetic.heap import Heap


class AdderKind(Enum):
    """How the last addition carries: from place to place, or by a tree of spans (Brent and Kung, 1982)."""

    RIPPLE = "ripple"
    PREFIX = "prefix"


def add(heap: Heap, kind: AdderKind) -> Adder:
    """Adds the two words that a heap has."""
    rows = [tuple(column[row].net if len(column) > row else ZERO for column in heap.columns) for row in (0, 1)]
    return Carries(heap.sheet, rows[0], rows[1]).adder(kind)


class Carries:
    """The carries of an addition, as nodes over spans of places."""

    def __init__(self, sheet: Sheet, left: tuple[str, ...], right: tuple[str, ...]):
        self.sheet, self.left, self.right = sheet, left, right
        self.nodes = [
            CarryNode(place, place, sheet.both(a, b), sheet.differ(a, b)) for place, (a, b) in enumerate(zip(left, right))
        ]

    def adder(self, kind: AdderKind) -> Adder:
        """The addition, each carry by its node."""
        carries = self.ripple() if kind == AdderKind.RIPPLE else self.prefix()
        outputs = [self.nodes[0].propagate] if self.left else []
        outputs += [self.sheet.differ(self.nodes[place].propagate, self.nodes[carries[place - 1]].generate) for place in range(1, len(self.left))]
        return Adder(self.left, self.right, tuple(self.nodes), tuple(carries), tuple(outputs))

    def join(self, upper: int, lower: int) -> int:
        """The node of two spans of which one begins where the other ends."""
        high, low = self.nodes[upper], self.nodes[lower]
        generate = self.sheet.either(high.generate, self.sheet.both(high.propagate, low.generate))
        propagate = self.sheet.both(high.propagate, low.propagate)
        self.nodes.append(CarryNode(low.low, high.high, generate, propagate, upper, lower))
        return len(self.nodes) - 1

    def ripple(self) -> list[int]:
        """The node of each carry: each place after the span below it."""
        carries = [0] if len(self.left) > 1 else []
        for place in range(1, len(self.left) - 1):
            carries.append(self.join(place, carries[-1]))
        return carries

    def prefix(self) -> list[int]:
        """The node of each carry, by spans whose lengths are powers of two. Places below the first carry need none."""
        known: dict[tuple[int, int], int] = {(place, place): place for place in range(len(self.left))}

        def span(high: int, low: int) -> int:
            if (high, low) not in known:
                length = 1
                while length * 2 <= high - low:
                    length *= 2
                # The lower part is as long as a power of two, so that other spans have it too.
                known[high, low] = self.join(span(high, low + length), span(low + length - 1, low))
            return known[high, low]

        return [span(place, 0) for place in range(len(self.left) - 1)]
