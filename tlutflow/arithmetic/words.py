"""A design at word level, as Yosys writes it in JSON: its cells, what drives each bit, and which bits depend on parameters alone.

A bit is a number, which is a net, or one of the characters 0, 1, x and z, as in Yosys's JSON. A word is a list of bits, the lowest first.
"""

from __future__ import annotations

import re
from dataclasses import dataclass
from typing import Any, Iterable, Iterator, Union

Bit = Union[int, str]
# Cells whose outputs aren't a function of their inputs within a cycle.
STATEFUL = re.compile(r"\$(_?\w*(dff|latch|sr_|ff)|mem|fsm|assert|assume|anyconst|anyseq|initstate)", re.IGNORECASE)
# Cells of which each bit of the output depends on the bits of the inputs at the same place, and on the bits of S.
BITWISE = ("$not", "$and", "$or", "$xor", "$xnor", "$mux", "$pos")


@dataclass(frozen=True)
class WordCell:
    """A cell: its name, its kind, the numbers that configure it, its ports' bits, and which of its ports are outputs."""

    name: str
    kind: str
    settings: dict[str, int]
    ports: dict[str, tuple[Bit, ...]]
    outputs: frozenset[str]

    def inputs(self) -> Iterator[Bit]:
        """The bits that it reads."""
        for port, bits in self.ports.items():
            if port not in self.outputs:
                yield from bits


@dataclass(frozen=True)
class Driver:
    """What drives a bit: the cell, its port, and the place in that."""

    cell: WordCell
    port: str
    place: int


@dataclass(frozen=True)
class WordDesign:
    """The cells of a design in one module, the driver of each bit, and the bits that depend on parameters alone."""

    cells: tuple[WordCell, ...]
    drivers: dict[Bit, Driver]
    fixed: frozenset[Bit]

    def is_fixed(self, bit: Bit) -> bool:
        """Whether a bit is a constant or depends on parameters alone."""
        return isinstance(bit, str) or bit in self.fixed


def setting(text: Any) -> int:
    """A number that configures a cell, which Yosys writes in binary digits."""
    if not isinstance(text, str):
        return int(text)
    digits = text.strip().replace("x", "0").replace("z", "0")
    return int(digits, 2) if digits and not set(digits) - set("01") else 0


def cells_of(module: dict[str, Any]) -> tuple[WordCell, ...]:
    """The cells of a module."""
    found = []
    for name, it in module["cells"].items():
        directions = it.get("port_directions", {})
        ports = {port: tuple(bits) for port, bits in it["connections"].items()}
        outputs = frozenset(port for port in ports if directions.get(port) != "input")
        settings = {key: setting(value) for key, value in it.get("parameters", {}).items()}
        found.append(WordCell(name, it["type"], settings, ports, outputs))
    return tuple(found)


def word_design(module: dict[str, Any], parameters: Iterable[str]) -> WordDesign:
    """The design of a module of which some input ports are parameters."""
    cells = cells_of(module)
    drivers: dict[Bit, Driver] = {}
    for cell in cells:
        for port in cell.outputs:
            drivers.update((bit, Driver(cell, port, place)) for place, bit in enumerate(cell.ports[port]))
    marked = {bit for name in parameters for bit in module["ports"][name]["bits"]}
    return WordDesign(cells, drivers, frozenset(marked | fixed_outputs(cells, marked)))


def dependencies(cell: WordCell, port: str, place: int) -> Iterator[Bit]:
    """The bits that a bit of a cell's output depends on."""
    if cell.kind not in BITWISE:
        yield from cell.inputs()
        return
    for name, bits in cell.ports.items():
        if name == "S":
            yield from bits
        elif name not in cell.outputs and bits:
            # A shorter operand is extended by its highest bit or by 0.
            yield bits[min(place, len(bits) - 1)]


def fixed_outputs(cells: Iterable[WordCell], marked: set[Bit]) -> set[Bit]:
    """The bits of outputs that depend on marked bits alone: each one as soon as the last bit that it depends on is known to be fixed."""
    waiting: dict[Bit, list[Bit]] = {}
    missing: dict[Bit, int] = {}
    for cell in cells:
        if STATEFUL.match(cell.kind):
            continue
        for port in cell.outputs:
            for place, bit in enumerate(cell.ports[port]):
                needs = {it for it in dependencies(cell, port, place) if not isinstance(it, str)}
                missing[bit] = len(needs)
                for need in needs:
                    waiting.setdefault(need, []).append(bit)
    found: set[Bit] = set()
    ready = [*marked, *(bit for bit, many in missing.items() if many == 0)]
    while ready:
        bit = ready.pop()
        if bit in found:
            continue
        found.add(bit)
        for dependent in waiting.get(bit, []):
            missing[dependent] -= 1
            if missing[dependent] == 0:
                ready.append(dependent)
    return found - marked
