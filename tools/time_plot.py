"""The plot of docs/performance.md: CPU time over AND nodes, of both programs and of ABC, as SVG, from docs/figures/beside_abc.json.

`tools/doc_facts.py` compares docs/pictures/times.svg with it, and with `--update` writes it.
"""

from __future__ import annotations

import os
import sys
from dataclasses import dataclass
from html import escape
from math import log10
from typing import Any, Iterator

TOP = os.path.dirname(os.path.dirname(os.path.abspath(__file__)))
sys.path.insert(0, TOP)

from tlutflow.reports.plots import FONT, GRID, line, number, text

PICTURE = "docs/pictures/times.svg"
WIDTH, HEIGHT = 760, 380
LOW, HIGH = HEIGHT - 58, 64
# The axes: AND nodes and seconds, as powers of ten.
NODES, SECONDS = (1.3, 5.0), (-3.0, 2.0)
# What is drawn: who, the title and the colour.
SERIES = (("abc", "ABC `if`", "#5f6368"), ("tlut", "tlut", "#d01c1c"), ("compact", "tlut-compact", "#1a5fb4"))
PANELS = (("4", 64, 370), ("6", 426, WIDTH - 28))


@dataclass(frozen=True)
class Panel:
    """A part of the card with axes, for LUTs of this many inputs."""

    size: str
    left: float
    right: float

    def x(self, nodes: float) -> float:
        """The horizontal position of a number of nodes."""
        return self.left + (self.right - self.left) * (log10(nodes) - NODES[0]) / (NODES[1] - NODES[0])

    @staticmethod
    def y(seconds: float) -> float:
        """The vertical position of a time."""
        return LOW - (LOW - HIGH) * (log10(seconds) - SECONDS[0]) / (SECONDS[1] - SECONDS[0])

    def frame(self) -> Iterator[str]:
        """The title, the grid and the numbers of the axes."""
        yield text(self.left, HIGH - 12, f"K = {self.size}", "start", 13, more=' font-weight="bold"')
        for power in range(int(SECONDS[0]), int(SECONDS[1]) + 1):
            at = self.y(10**power)
            yield line(self.left, at, self.right, at, GRID)
            yield text(self.left - 6, at + 4, f"{10.0**power:g} s", "end", 11)
        for power in range(2, int(NODES[1]) + 1):
            at = self.x(10**power)
            yield line(at, LOW, at, HIGH, GRID)
            yield text(at, LOW + 16, f"{10**power:,}", size=11)
        yield text((self.left + self.right) / 2, HEIGHT - 22, "AND nodes")

    def points(self, found: dict[str, Any]) -> Iterator[str]:
        """A dot for each netlist and program, each with a title; a netlist that is refused has none."""
        for who, title, colour in SERIES:
            for name, netlist in found.items():
                it = netlist["parameters"][self.size][who]
                if "seconds" in it:
                    seconds = it["seconds"]
                    at = f'cx="{number(self.x(netlist["ands"]))}" cy="{number(self.y(max(seconds, 0.001)))}"'
                    yield f'<circle {at} r="3.5" fill="{colour}" fill-opacity="0.75"><title>{escape(f"{name}, {title}: {seconds} s")}</title></circle>'


def plot(found: dict[str, Any]) -> str:
    """The picture."""
    head = f'<svg xmlns="http://www.w3.org/2000/svg" width="{WIDTH}" height="{HEIGHT}" viewBox="0 0 {WIDTH} {HEIGHT}" role="img" {FONT}>'
    card = f'<rect x="0.5" y="0.5" width="{WIDTH - 1}" height="{HEIGHT - 1}" rx="6" fill="#ffffff" stroke="#c0c0c0"/>'
    parts = [head, "<title>CPU time of a whole call over the AND nodes of the netlist</title>", card]
    for place, (_, title, colour) in enumerate(SERIES):
        parts += [f'<circle cx="{72 + 130 * place}" cy="24" r="4" fill="{colour}"/>', text(82 + 130 * place, 28, title.replace("`", ""), "start", 12)]
    for panel in (Panel(*it) for it in PANELS):
        parts += [*panel.frame(), *panel.points(found)]
    return "\n".join([*parts, "</svg>", ""])
