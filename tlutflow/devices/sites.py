"""Which functions share a LUT site of a device whose LUTs have two outputs.

A site of a Xilinx device of series 7 holds one function of up to six inputs, or two functions that read at most five nets together (LUT6_2).
One whose bits can be rewritten holds one function of up to five inputs (CFGLUT5), or two that read at most four nets together.
"""

from __future__ import annotations

import heapq
from collections import defaultdict
from dataclasses import dataclass
from typing import Iterable, Optional

# How many nets two functions of a site may read together: those of constants, and those of which one can be rewritten.
FIXED_PAIR, REWRITABLE_PAIR = 5, 4


@dataclass(frozen=True)
class Node:
    """A combinational cell: the nets that it reads and drives, and how many nets the functions of its site may read together, 0 if it
    shares no site."""

    reads: frozenset[str]
    drives: tuple[str, ...]
    most: int


def pairs_of(nodes: list[Node], keeps_depth: bool = True) -> list[tuple[int, int]]:
    """The pairs of cells that share a site, by their places; each cell is in at most one pair. The cell with the fewest possible partners is
    served first, and takes the partner that has the fewest itself. No pair closes a loop through cells, even where its outputs are taken
    to depend on all its inputs; with `keeps_depth` no path gets longer than the longest one then either."""
    partners = partners_of(nodes)
    paths = Paths(nodes, keeps_depth)
    waiting = [(len(found), place) for place, found in partners.items()]
    heapq.heapify(waiting)
    pairs = []
    while waiting:
        many, place = heapq.heappop(waiting)
        if place not in partners or many != len(partners[place]):
            continue
        other = best_partner(nodes, partners, place, paths)
        if other is not None:
            pairs.append((min(place, other), max(place, other)))
            paths.join(place, other)
            taken: tuple[int, ...] = (place, other)
        else:
            taken = (place,)
        for it in taken:
            for reader in partners.pop(it):
                if reader in partners:
                    partners[reader].discard(it)
                    heapq.heappush(waiting, (len(partners[reader]), reader))
    return sorted(pairs)


def best_partner(nodes: list[Node], partners: dict[int, set[int]], place: int, paths: Paths) -> Optional[int]:
    """The partner with the fewest partners with which the cell may be joined; of several the one that shares the most nets."""

    def key(it: int) -> tuple[int, int, int]:
        return len(partners[it]), -len(nodes[it].reads & nodes[place].reads), it

    return next((it for it in sorted(partners[place], key=key) if paths.may_join(place, it)), None)


def partners_of(nodes: list[Node]) -> dict[int, set[int]]:
    """For each cell that may share a site the cells with which it may."""
    able = [place for place, node in enumerate(nodes) if node.most]
    readers: dict[str, list[int]] = defaultdict(list)
    for place in able:
        for net in nodes[place].reads:
            readers[net].append(place)
    small: dict[int, list[int]] = defaultdict(list)
    for place in able:
        small[len(nodes[place].reads)].append(place)
    found: dict[int, set[int]] = {place: set() for place in able}
    for place in able:
        sharing = {it for net in nodes[place].reads for it in readers[net]}
        apart = {it for size in range(FIXED_PAIR - len(nodes[place].reads) + 1) for it in small[size]}
        found[place] = {it for it in sharing | apart if it != place and may_share(nodes[place], nodes[it])}
    return found


def may_share(one: Node, other: Node) -> bool:
    """Whether two cells read few enough nets together."""
    return len(one.reads | other.reads) <= min(one.most, other.most)


class Paths:
    """Which cells each cell reaches, as digits of a number, and how many cells the longest paths to and from each have, while pairs are
    joined into one."""

    def __init__(self, nodes: list[Node], keeps_depth: bool):
        driver = {net: place for place, node in enumerate(nodes) for net in node.drives}
        self.drivers = [sorted({driver[net] for net in node.reads if net in driver}) for node in nodes]
        self.readers: list[list[int]] = [[] for _ in nodes]
        for place, found in enumerate(self.drivers):
            for it in found:
                self.readers[it].append(place)
        self.group = [[place] for place in range(len(nodes))]
        self.own = [1 << place for place in range(len(nodes))]
        self.reach = [0] * len(nodes)
        self.before, self.behind = [1] * len(nodes), [1] * len(nodes)
        order = order_of(nodes, driver)
        for place in order:
            self.before[place] = 1 + max((self.before[it] for it in self.drivers[place]), default=0)
        for place in reversed(order):
            self.behind[place] = 1 + max((self.behind[it] for it in self.readers[place]), default=0)
            for it in self.drivers[place]:
                self.reach[it] |= self.reach[place] | self.own[place]
        self.most = max(self.before, default=0) if keeps_depth else 2 * len(nodes)

    def may_join(self, one: int, other: int) -> bool:
        """Whether two cells made one neither close a loop nor make a path too long."""
        if max(self.before[one], self.before[other]) + max(self.behind[one], self.behind[other]) - 1 > self.most:
            return False
        return not (self.reach[one] & self.own[other] or self.reach[other] & self.own[one])

    def join(self, one: int, other: int) -> None:
        """Makes two cells one, which reaches what either reaches, and is reached from where either is."""
        both = self.own[one] | self.own[other]
        mine = self.reach[one] | self.reach[other]
        self.reach = [it | mine | both if it & both else it for it in self.reach]
        self.reach[one] = self.reach[other] = mine
        self.own[one] = self.own[other] = both
        self.group[one] = self.group[other] = [one, other]
        self.raise_to(self.before, [one, other], max(self.before[one], self.before[other]), self.readers)
        self.raise_to(self.behind, [one, other], max(self.behind[one], self.behind[other]), self.drivers)

    def raise_to(self, lengths: list[int], group: list[int], length: int, following: list[list[int]]) -> None:
        """Raises the length at the cells of a site, and then at all that follow."""
        waiting = [(group, length)]
        while waiting:
            cells, wanted = waiting.pop()
            for cell in cells:
                lengths[cell] = max(lengths[cell], wanted)
            for it in {follower for cell in cells for follower in following[cell]}:
                if lengths[it] <= wanted:
                    waiting.append((self.group[it], wanted + 1))


def order_of(nodes: list[Node], driver: dict[str, int]) -> list[int]:
    """The places of the cells, each after those that drive what it reads; a loop that is there already is left where it is met."""
    order: list[int] = []
    state = [0] * len(nodes)
    for start in range(len(nodes)):
        waiting = [start]
        while waiting:
            at = waiting[-1]
            if state[at] == 0:
                state[at] = 1
                waiting += drivers_of(nodes[at], driver, state)
            else:
                waiting.pop()
                if state[at] == 1:
                    state[at] = 2
                    order.append(at)
    return order


def drivers_of(node: Node, driver: dict[str, int], state: list[int]) -> Iterable[int]:
    """The cells that drive what a cell reads, and that weren't met yet."""
    return [driver[net] for net in sorted(node.reads) if net in driver and state[driver[net]] == 0]
