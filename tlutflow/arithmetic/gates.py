"""A sheet of gates: ANDs and XORs of two nets or their inverses, each gate once; and a model of them in BLIF.

A net with ~ is inverted, and 0 and 1 are the constants.
"""

from __future__ import annotations

from dataclasses import dataclass
from typing import Iterator, Mapping

ZERO, ONE = "0", "1"


def inverse(net: str) -> str:
    """The inverse of a net."""
    if net in (ZERO, ONE):
        return ONE if net == ZERO else ZERO
    return net[1:] if net.startswith("~") else f"~{net}"


def plain(net: str) -> str:
    """A net without its inversion."""
    return net.lstrip("~")


def digit(net: str) -> str:
    """What a cube of a cover has for a net, or for its inverse."""
    return "0" if net.startswith("~") else "1"


@dataclass(frozen=True)
class Gate:
    """An AND or an XOR of two nets; those of an XOR aren't inverted."""

    is_and: bool
    left: str
    right: str

    def cover(self, net: str) -> Iterator[str]:
        """The gate's lines in BLIF."""
        yield f".names {plain(self.left)} {plain(self.right)} {net}"
        if self.is_and:
            yield f"{digit(self.left)}{digit(self.right)} 1"
        else:
            yield from ("10 1", "01 1")


class Sheet:
    """The gates of a model, with the nets that they drive."""

    def __init__(self) -> None:
        self.gates: dict[Gate, str] = {}

    def net(self, gate: Gate) -> str:
        """The net of a gate."""
        return self.gates.setdefault(gate, f"n{len(self.gates)}")

    def both(self, left: str, right: str) -> str:
        """The AND of two nets."""
        if ZERO in (left, right) or left == inverse(right):
            return ZERO
        if left == ONE or left == right:
            return right
        if right == ONE:
            return left
        return self.net(Gate(True, min(left, right), max(left, right)))

    def either(self, left: str, right: str) -> str:
        """The OR of two nets."""
        return inverse(self.both(inverse(left), inverse(right)))

    def differ(self, left: str, right: str) -> str:
        """The XOR of two nets."""
        if plain(left) == plain(right):
            return ZERO if left == right else ONE
        for net, other in ((left, right), (right, left)):
            if net in (ZERO, ONE):
                return other if net == ZERO else inverse(other)
        made = self.net(Gate(False, min(plain(left), plain(right)), max(plain(left), plain(right))))
        return made if left.startswith("~") == right.startswith("~") else inverse(made)

    def all_of(self, nets: list[str]) -> str:
        """The AND of some nets."""
        found = ONE
        for net in nets:
            found = self.both(found, net)
        return found

    def majority(self, left: str, right: str, third: str) -> str:
        """Whether two of three nets are 1 at least."""
        return self.either(self.both(left, right), self.both(self.differ(left, right), third))

    def full_adder(self, left: str, right: str, third: str) -> tuple[str, str]:
        """The sum and the carry of three nets."""
        return self.differ(self.differ(left, right), third), self.majority(left, right, third)

    def model(self, name: str, inputs: list[str], outputs: Mapping[str, str]) -> str:
        """The model in BLIF; `outputs` has the net of each output."""
        lines = [f".model {name}", " ".join([".inputs", *inputs]), " ".join([".outputs", *outputs])]
        for gate, net in self.gates.items():
            lines += gate.cover(net)
        for output, net in outputs.items():
            if net in (ZERO, ONE):
                lines += [f".names {output}", *(["1"] if net == ONE else [])]
            else:
                lines += [f".names {plain(net)} {output}", f"{digit(net)} 1"]
        return "\n".join([*lines, ".end", ""])


def port_nets(ports: Mapping[str, int]) -> list[str]:
    """The nets of vectors of these widths, as Yosys names those of a cell in BLIF: a port of one bit has no index."""
    return [f"{port}[{place}]" if width > 1 else port for port, width in ports.items() for place in range(width)]
