"""Writes a graph for timing the enumeration of cuts.

    python3 tools/cut_graphs.py multiplier 16
    python3 tools/cut_graphs.py benes 16

The first is an array multiplier, the second a Benes network whose switches are parameters. The first line has the numbers of sources
and of AND nodes; then come a 0 or 1 for each source (1: a parameter) and two literals for each AND node.
"""

from __future__ import annotations

import shared


class Graph:
    def __init__(self, kinds: list[int]) -> None:
        self.kinds = kinds
        self.pairs: list[tuple[int, int]] = []
        self.places: dict[tuple[int, int], int] = {}

    def conjunction(self, a: int, b: int) -> int:
        a, b = min(a, b), max(a, b)
        if a == 0 or a ^ b == 1:
            return 0
        if a == 1 or a == b:
            return b
        if (a, b) not in self.places:
            self.places[a, b] = len(self.pairs)
            self.pairs.append((a, b))
        return 2 * (1 + len(self.kinds) + self.places[a, b])

    def choice(self, bit: int, no: int, yes: int) -> int:
        return self.conjunction(self.conjunction(bit, yes) ^ 1, self.conjunction(bit ^ 1, no) ^ 1) ^ 1

    def write(self) -> None:
        print(len(self.kinds), len(self.pairs))
        print(*self.kinds)
        for a, b in self.pairs:
            print(a, b)


def full_adder(graph: Graph, a: int, b: int, c: int) -> tuple[int, int]:
    both = graph.conjunction(a, b)
    none = graph.conjunction(a ^ 1, b ^ 1)
    odd = graph.conjunction(both ^ 1, none ^ 1)
    carried = graph.conjunction(odd, c)
    even = graph.conjunction(odd ^ 1, c ^ 1)
    return graph.conjunction(carried ^ 1, even ^ 1), graph.conjunction(both ^ 1, carried ^ 1) ^ 1


def multiplier(size: int) -> Graph:
    graph = Graph([0] * (2 * size))

    def product(i: int, j: int) -> int:
        return graph.conjunction(2 * (1 + i), 2 * (1 + size + j))

    row = [product(i, 0) for i in range(size)] + [0]
    for j in range(1, size):
        carry, sums = 0, []
        for i in range(size):
            total, carry = full_adder(graph, row[i + 1], product(i, j), carry)
            sums.append(total)
        row = sums + [carry]
    return graph


def benes(size: int) -> Graph:
    switches = (size // 2) * (2 * (size.bit_length() - 1) - 1)
    graph = Graph([0] * size + [1] * switches)
    bits = iter(range(2 * (1 + size), 2 * (1 + size + switches), 2))

    def switch(a: int, b: int) -> tuple[int, int]:
        bit = next(bits)
        return graph.choice(bit, a, b), graph.choice(bit, b, a)

    def route(lines: list[int]) -> list[int]:
        if len(lines) == 2:
            return list(switch(*lines))
        first = [switch(a, b) for a, b in zip(lines[::2], lines[1::2])]
        upper, lower = route([a for a, _ in first]), route([b for _, b in first])
        return [line for a, b in zip(upper, lower) for line in switch(a, b)]

    route([2 * (1 + i) for i in range(size)])
    return graph


def main() -> None:
    kinds = {"multiplier": multiplier, "benes": benes}
    parser = shared.words(__doc__)
    parser.add_argument("kind", metavar="KIND", choices=kinds, help=", ".join(kinds))
    parser.add_argument("size", metavar="SIZE", type=int, help="the bits of a factor, or the lines of the network")
    given = parser.parse_args()
    kinds[given.kind](given.size).write()


if __name__ == "__main__":
    main()
