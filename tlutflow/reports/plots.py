"""Plots as SVG: how many bits a change rewrites, and how many ticks that takes.

Each plot is a white card, so that it can be read on white and on dark pages. Nothing in it depends on the machine.
"""

from __future__ import annotations

from collections import Counter
from dataclasses import dataclass
from html import escape

from tlutflow.changes import spread

WIDTH, HEIGHT = 720, 300
INK, GRID, BAR, EDGE, MARK = "#222222", "#d8d8d8", "#ffb74d", "#a86200", "#d01c1c"
FONT = 'font-family="Helvetica,Arial,sans-serif"'
BINS = 40
# The rates that are shown: bits that a configuration port takes a tick.
RATES = (1, 2, 4, 8, 16)
# A label of a median is left out where it would stand in that of the greatest value.
CLEAR = 15


def nice_step(top: float, parts: int) -> float:
    """A step of 1, 2 or 5 times a power of ten, so that at most this many steps reach a number."""
    step = 0.01
    while True:
        for factor in (1, 2, 5):
            if step * factor * parts >= top:
                return step * factor
        step *= 10


def number(value: float) -> str:
    """A coordinate or a label in few characters."""
    return f"{value:.2f}".rstrip("0").rstrip(".")


def text(x: float, y: float, words: str, anchor: str = "middle", size: int = 12, colour: str = INK, more: str = "") -> str:
    """A text at a place."""
    return f'<text x="{number(x)}" y="{number(y)}" text-anchor="{anchor}" font-size="{size}" fill="{colour}"{more}>{escape(words)}</text>'


def line(x1: float, y1: float, x2: float, y2: float, colour: str = INK, width: float = 1, more: str = "") -> str:
    """A straight line."""
    ends = " ".join(f'{name}="{number(value)}"' for name, value in zip(("x1", "y1", "x2", "y2"), (x1, y1, x2, y2)))
    return f'<line {ends} stroke="{colour}" stroke-width="{number(width)}"{more}/>'


def bar(x: float, y: float, width: float, height: float) -> str:
    """A bar."""
    sides = " ".join(f'{name}="{number(value)}"' for name, value in zip(("x", "y", "width", "height"), (x, y, width, height)))
    return f'<rect {sides} fill="{BAR}" stroke="{EDGE}" stroke-width="0.5"/>'


@dataclass(frozen=True)
class Panel:
    """A part of the card with axes: its left and right ends, and the greatest values of both axes."""

    left: float
    right: float
    top_x: float
    top_y: float
    low: float = HEIGHT - 58
    high: float = 52

    def x(self, value: float) -> float:
        """The horizontal position of a value."""
        return self.left + (self.right - self.left) * value / self.top_x

    def y(self, value: float) -> float:
        """The vertical position of a value."""
        return self.low - (self.low - self.high) * value / self.top_y

    def frame(self, title: str, below: str, beside: str, unit: str = "") -> list[str]:
        """The title, the lines of the grid with their numbers, and what the axes have."""
        parts = [text(self.left - 36, 24, title, "start", 13, more=' font-weight="bold"'), text((self.left + self.right) / 2, HEIGHT - 16, below)]
        step = nice_step(self.top_y, 5)
        for place in range(int(self.top_y / step + 1e-9) + 1):
            at = self.y(place * step)
            parts += [line(self.left, at, self.right, at, GRID), text(self.left - 6, at + 4, number(place * step) + unit, "end", 11)]
        parts.append(text(self.left - 36, 42, beside, "start", 11))
        return [*parts, line(self.left, self.low, self.right, self.low)]


def histogram(counts: list[int], median: int) -> list[str]:
    """The parts of a panel that shows how the bits of changes are spread."""
    width = int(max(1, nice_step(max(counts) + 1, BINS)))
    bins = Counter(it // width for it in counts)
    share = {place: 100 * many / len(counts) for place, many in bins.items()}
    panel = Panel(56, 388, (max(bins) + 1) * width, 1.08 * max(share.values()))
    parts = panel.frame("Bits that a change rewrites", "bits" if width == 1 else f"bits, {width} to a bar", "changes", " %")
    for place in sorted(share):
        left, right, top = panel.x(place * width), panel.x((place + 1) * width), panel.y(share[place])
        parts.append(bar(left + 0.5, top, right - left - 1, panel.low - top))
    step = max(1, int(nice_step(panel.top_x, 8)))
    middle = 0.5 if width == 1 else 0
    parts += [text(panel.x(value + middle), panel.low + 16, str(value), size=11) for value in range(0, int(panel.top_x), step)]
    at = panel.x(median + middle)
    side, shift = ("start", 5) if at < panel.left + 0.6 * (panel.right - panel.left) else ("end", -5)
    marked = line(at, panel.high - 4, at, panel.low, MARK, 1.5, ' stroke-dasharray="5 3"')
    return [*parts, marked, text(at + shift, panel.high + 6, f"median {median}", side, 12, MARK)]


def tick_parts(ticks: dict[int, tuple[int, int, int]]) -> list[str]:
    """The parts of a panel that has, for each rate, the least, the median and the greatest number of ticks."""
    panel = Panel(464, WIDTH - 16, len(ticks), 1.1 * max(most for _, _, most in ticks.values()))
    parts = panel.frame("Ticks that it takes", "RATE, bits written a tick", "ticks")
    for place, (rate, (least, median, most)) in enumerate(ticks.items()):
        at = panel.x(place + 0.5)
        parts += [text(at, panel.low + 16, str(rate), size=11), line(at, panel.y(least), at, panel.y(most), BAR, 12)]
        parts += [f'<circle cx="{number(at)}" cy="{number(panel.y(median))}" r="4" fill="{MARK}"/>', text(at, panel.y(most) - 5, str(most), size=11)]
        if panel.y(median) - panel.y(most) > CLEAR:
            parts.append(text(at + 8, panel.y(median) + 4, str(median), "start", 11, MARK))
    return [*parts, text(panel.right, panel.high - 10, "least to greatest, median red", "end", 11)]


def ticks_of(counts: list[int]) -> dict[int, tuple[int, int, int]]:
    """The least, the median and the greatest number of ticks at each rate, for changes of these numbers of bits."""
    return {rate: spread([-(-it // rate) for it in counts]) for rate in RATES}


def plot(title: str, counts: list[int], median: int, ticks: dict[int, tuple[int, int, int]]) -> str:
    """The plot of a study: both panels on a card."""
    head = f'<svg xmlns="http://www.w3.org/2000/svg" width="{WIDTH}" height="{HEIGHT}" viewBox="0 0 {WIDTH} {HEIGHT}" role="img" {FONT}>'
    card = f'<rect x="0.5" y="0.5" width="{WIDTH - 1}" height="{HEIGHT - 1}" rx="6" fill="#ffffff" stroke="#c0c0c0"/>'
    return "\n".join([head, f"<title>{escape(title)}</title>", card, *histogram(counts, median), *tick_parts(ticks), "</svg>", ""])
