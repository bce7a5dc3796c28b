"""Reads netlists in AIGER's ASCII format, as the library of one model that `tlut` reads."""

from __future__ import annotations

import re

from tlutflow.faults import Fault
from tlutflow.netlist import Cover, Latch, Library, Model

BEGINNING = "aag "


class Graph:
    """The model that grows: its names by literals, and the covers of complements that were needed."""

    def __init__(self, names: dict[int, str], mark: str):
        self.names, self.mark = names, mark
        self.model = Model("aag")
        self.made: set[str] = set()

    def variable(self, number: int) -> str:
        """The net of a variable."""
        return self.names.get(number, f"{self.mark}{number}")

    def cover(self, literals: list[int], output: str) -> None:
        """A cover that is 1 if all literals are. A constant literal is left out, or makes the cover 0."""
        kept = [it for it in literals if it != 1]
        if 0 in kept:
            self.model.covers.append(Cover([], output))
            return
        cells = "".join("01"[1 - (it & 1)] for it in kept)
        self.model.covers.append(Cover([self.variable(it >> 1) for it in kept], output, [(cells, "1")]))

    def net(self, literal: int) -> str:
        """The net of a literal, with a cover for a complement or a constant."""
        if literal > 1 and literal % 2 == 0:
            return self.variable(literal >> 1)
        name = f"{self.mark}{literal >> 1}{'_not' if literal != 0 else '_zero'}"
        if name not in self.made:
            self.made.add(name)
            self.cover([literal], name)
        return name


def numbers(line: str) -> list[int]:
    """The numbers of a line."""
    return [int(word) for word in line.split(" ")]


def symbols(lines: list[str]) -> dict[str, str]:
    """The names that the symbols give, up to the comment."""
    found = {}
    for line in lines:
        if line == "c":
            break
        symbol = re.fullmatch(r"([ilo]\d+) (.*)", line)
        if symbol is None:
            if line:
                raise ValueError
            continue
        found[symbol[1]] = symbol[2]
    return found


def parse_aiger(text: str, file: str) -> Library:
    """The library of a text; `file` is its name in a fault."""
    lines = text.replace("\r\n", "\n").split("\n")
    at = 0
    try:
        _, inputs, latches, outputs, gates = numbers(lines[0][len(BEGINNING) :])
        named = symbols(lines[1 + inputs + latches + outputs + gates :])
        rows = [numbers(line) for line in lines[1 : 1 + inputs + latches + outputs + gates]]
        if len(rows) != inputs + latches + outputs + gates:
            raise ValueError
        names = {row[0] >> 1: named.get(f"i{place}", f"i{place}") for place, row in enumerate(rows[:inputs])}
        out_names = [named.get(f"o{place}", f"o{place}") for place in range(outputs)]
        longest = max((len(it) - len(it.lstrip("_")) for it in [*names.values(), *out_names]), default=0)
        graph = Graph(names, "_" * (longest + 1) + "v")
        graph.model.inputs, graph.model.outputs = list(names.values()), out_names
        at = inputs
        for own, following, *init in rows[at : at + latches]:
            graph.model.latches.append(Latch(graph.net(following), graph.variable(own >> 1), None, "1" if init == [1] else "0"))
        at += latches
        for row, name in zip(rows[at : at + outputs], out_names):
            graph.cover(row, name)
        for own, left, right in rows[at + outputs :]:
            graph.cover([left, right], graph.variable(own >> 1))
    except (ValueError, IndexError):
        raise Fault(f"{file}: it isn't valid in AIGER's ASCII format; ./tlut reports what is wrong with it") from None
    return Library(file, [graph.model])
