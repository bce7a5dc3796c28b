"""Preparations of large logic, part by part. A part that ABC fails on, takes too long for, or changes, stays as it was read."""

from __future__ import annotations

import os
from dataclasses import dataclass
from typing import Optional

from tlutflow.faults import Fault
from tlutflow.preparations import Preparation
from tlutflow.preparing.combinational import logic_of
from tlutflow.preparing.comparison import Comparer
from tlutflow.preparing.flat import read_flat
from tlutflow.preparing.graphs import Bench
from tlutflow.preparing.parts import Divided, Part, divided, put_together
from tlutflow.preparing.pieces import Job, Jobs, Piece
from tlutflow.text import count, write_text

# About how long a comparison takes, as `cost` of a preparation.
COMPARING = 1


@dataclass(frozen=True)
class PreparedPart:
    """What a preparation made of a part, in BLIF, and the seconds that ABC took for it by the clock; or why there is nothing."""

    text: Optional[str]
    seconds: float = 0
    failure: str = ""


class PartsBench:
    """Where the parts of some logic are prepared: the parts, the name of the logic, and where graphs are made and compared."""

    def __init__(self, whole: Divided, name: str, bench: Bench):
        self.whole, self.name, self.bench = whole, name, bench
        self.comparer = Comparer(bench.abc, bench.seconds)

    def prepared(self, place: int, preparation: Preparation) -> Job[PreparedPart]:
        """Prepares a part, and compares it with what was read."""
        part, key = self.whole.parts[place], (self.name, str(place))
        try:
            source = yield Piece(("source", *key), lambda: self.bench.source(part.text()), preparation.cost)
            graph = yield from self.bench.prepared(source, preparation)
            text = self.bench.text(graph)
            yield Piece(("part", *key, text), lambda: self.compare(part, graph.name, text), COMPARING)
        except Fault as fault:
            return PreparedPart(None, failure=str(fault))
        return PreparedPart(text, graph.seconds)

    def compare(self, part: Part, name: str, text: str) -> None:
        """Refuses what was made of a part unless it is equal to it."""
        room = f"{self.bench.folder}/{name}_compared"
        os.makedirs(room, exist_ok=True)
        self.comparer.compare(part.text(), text, room)

    def netlist(self, made: list[PreparedPart]) -> str:
        """The netlist with what was made of the parts. A fault if nothing was."""
        if made and all(it.text is None for it in made):
            raise Fault(f"none of {count(len(made), 'part')} is left: {made[0].failure}")
        return put_together(self.whole, [it.text for it in made])

    def left_out(self, made: list[PreparedPart]) -> str:
        """Which parts stay as they were read, and why the first one does; empty if none does."""
        places = [place for place, it in enumerate(made) if it.text is None]
        if not places:
            return ""
        names = ", ".join(self.title(self.whole.parts[place]) for place in places)
        return f"{len(places)} of {count(len(made), 'part')} as read, with {names}: {made[places[0]].failure}"

    def title(self, part: Part) -> str:
        """What a part is called: the first output or register that it drives, or else the first net."""
        model = self.whole.logic.model
        driven = {latch.source: latch.state for latch in model.latches}
        names = [driven.get(net, net) for net in part.outputs if net in driven or net in model.outputs]
        return (names or part.outputs)[0]


def prepare_by_parts(netlist: str, parameters: list[str], preparation: Preparation, bench: Bench, jobs: int, most: int) -> str:
    """Replaces a netlist with its preparation by parts of at most so many gates, several at a time. Returns a line about the parts that stay
    as they were read; empty if none does."""
    whole = divided(logic_of(read_flat(netlist)), parameters, most)
    shop, many = PartsBench(whole, "", bench), len(whole.parts)
    found = dict(Jobs([shop.prepared(place, preparation) for place in range(many)], jobs or os.cpu_count() or 1).run())
    made = [found[place] for place in range(many)]
    if any(it.text is not None for it in made):
        write_text(netlist, shop.netlist(made))
    return shop.left_out(made)
