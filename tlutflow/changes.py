"""Changes of parameters, random or exhaustive, and how many configuration bits they rewrite."""

from __future__ import annotations

import statistics
from typing import Iterator

from tlutflow import tools
from tlutflow.bus import Bus
from tlutflow.buses import buses_of
from tlutflow.refusals import refusal_of
from tlutflow.text import write_text

# How many changes are drawn, and the bits of the parameters up to which all changes from all values are looked at.
SAMPLED, EXHAUSTIVE = 5000, 10
Change = tuple[dict[str, int], dict[str, int]]


class Random:
    """Numbers that look drawn, the same ones in each run: a linear congruence of 64 bits."""

    def __init__(self, seed: int):
        self.state = seed

    def below(self, bound: int) -> int:
        """A number below a bound."""
        self.state = (self.state * 6364136223846793005 + 1442695040888963407) % 2**64
        return (self.state >> 33) % bound


def all_values(nets: list[str]) -> Iterator[dict[str, int]]:
    """All values of some nets."""
    for value in range(1 << len(nets)):
        yield Bus("", tuple(nets)).digits(value)


def all_changes(nets: list[str], buses: list[Bus]) -> Iterator[Change]:
    """From all values of the parameters each other value of each bus."""
    for values in all_values(nets):
        for bus in buses:
            for other in range(1 << bus.width):
                if other != bus.number(values):
                    yield values, bus.digits(other)


def drawn_changes(nets: list[str], buses: list[Bus], many: int) -> Iterator[Change]:
    """From drawn values of the parameters a drawn other value of a drawn bus."""
    random = Random(1)
    for _ in range(many):
        values = {net: random.below(2) for net in nets}
        bus = buses[random.below(len(buses))]
        other = (bus.number(values) + 1 + random.below((1 << bus.width) - 1)) % (1 << bus.width)
        yield values, bus.digits(other)


def changes_of(nets: list[str], buses: list[Bus], many: int = SAMPLED) -> Iterator[Change]:
    """All changes if there are few parameters, and otherwise random ones."""
    return all_changes(nets, buses) if len(nets) <= EXHAUSTIVE else drawn_changes(nets, buses, many)


def set_line(values: dict[str, int]) -> str:
    """The line of a script that gives nets these values."""
    return "set " + " ".join(f"{net}={bit}" for net, bit in values.items()) + "\n"


def rewritten(program: str, pack: str, changes: Iterator[Change], folder: str) -> list[int]:
    """How many bits each change rewrites, by `tlut bits`: a set to the values before it, which isn't counted, and the change."""
    script = f"{folder}/changes.scr"
    write_text(script, "".join(set_line(before) + set_line(after) for before, after in changes))
    ran = tools.run([program, "bits", pack, script], folder)
    if ran.returncode:
        raise refusal_of(ran)
    return [int(line.split()[1]) for line in ran.stdout.splitlines()[2::2]]


def median_rewritten(program: str, pack: str, nets: list[str], folder: str, many: int) -> int:
    """The median of the bits that a drawn change of a value rewrites, of two in the middle the lower one; 0 without parameters."""
    if not nets:
        return 0
    return statistics.median_low(rewritten(program, pack, drawn_changes(nets, list(buses_of(nets).values()), many), folder))


def spread(counts: list[int]) -> tuple[int, int, int]:
    """The least, the median (of two in the middle the lower one) and the greatest."""
    return min(counts), statistics.median_low(counts), max(counts)
