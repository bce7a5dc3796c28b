"""A design as Yosys writes it in JSON: the names of its bits, their places in the source, and what drives them."""

from __future__ import annotations

import json
from dataclasses import dataclass
from typing import Any, Callable, Iterator, Optional

from tlutflow.bus import Bus
from tlutflow.faults import Fault
from tlutflow.text import read_text


@dataclass(frozen=True)
class Cell:
    """A cell: its name, its type, the bits of each of its ports, which of them are outputs, and its place in the source."""

    name: str
    kind: str
    connections: dict[str, list[Any]]
    outputs: set[str]
    place: str

    def bits(self, is_output: bool) -> Iterator[Any]:
        """The bits of its outputs, or of its inputs."""
        for port, bits in self.connections.items():
            if (port in self.outputs) == is_output:
                yield from bits


@dataclass(frozen=True)
class Net:
    """A net with a name: its bus, its bits in the same order, its place in the source, and whether Yosys made the name."""

    bus: Bus
    bits: list[Any]
    place: str
    is_hidden: bool


class Design:
    """The module of a file that `write_json` made."""

    def __init__(self, module: dict[str, Any]):
        self.ports: dict[str, dict[str, Any]] = module["ports"]
        self.nets = {name: net_of(name, it, self.ports.get(name, {})) for name, it in module["netnames"].items()}
        self.cells = [cell_of(name, it) for name, it in module["cells"].items()]
        self.attributes = {name: it.get("attributes", {}) for name, it in module["netnames"].items()}
        self.named = self.names_of_bits()

    def names_of_bits(self) -> dict[Any, tuple[str, Net]]:
        """For each bit its best name: one of the source before one that Yosys made, an inner one before a port's, and the shortest way to it."""
        best: dict[Any, tuple[Any, str, Net]] = {}
        for order, (name, net) in enumerate(self.nets.items()):
            rank = (net.is_hidden, name in self.ports, name.count("."), order)
            for title, bit in zip(net.bus.nets, net.bits):
                if bit not in best or rank < best[bit][0]:
                    best[bit] = rank, title, net
        return {bit: (title, net) for bit, (_, title, net) in best.items()}

    def name(self, bit: Any) -> Optional[str]:
        """The name of a bit in the source, or None."""
        title, net = self.named.get(bit, ("", None))
        return title if net is not None and not net.is_hidden else None


def source_place(attributes: dict[str, str]) -> str:
    """The place of something in the source, as ` (top.v:3)`; empty if Yosys doesn't know it."""
    places = attributes.get("src", "").split("|")
    file, colon, line = places[0].rpartition(":")
    return f" ({file}:{line.split('.')[0]})" if colon else ""


def net_of(name: str, given: dict[str, Any], port: dict[str, Any]) -> Net:
    """The net of an entry; a port's entry has its range."""
    is_hidden = bool(given.get("hide_name"))
    return Net(bus_of(name, {**given, **port}), given["bits"], source_place(given.get("attributes", {})), is_hidden)


def bus_of(name: str, given: dict[str, Any]) -> Bus:
    """The bus of a port or a net, with the names that `write_blif` gives its bits. Verilog's order of digits counts."""
    width, low = len(given["bits"]), given.get("offset", 0)
    is_signed = bool(given.get("signed"))
    if width == 1:
        return Bus(name, (name,), None, False, is_signed)
    is_turned = bool(given.get("upto"))
    places = range(low + width - 1, low - 1, -1) if is_turned else range(low, low + width)
    return Bus(name, tuple(f"{name}[{place}]" for place in places), low, is_turned, is_signed)


def cell_of(name: str, given: dict[str, Any]) -> Cell:
    """The cell of an entry."""
    directions = given.get("port_directions", {})
    outputs = {port for port, direction in directions.items() if direction != "input"}
    return Cell(name, given["type"], given["connections"], outputs, source_place(given.get("attributes", {})))


def read_design(path: str, top: str, shown: Callable[[str], str] = str) -> Design:
    """The top module of a file. `shown` makes places in the source of those that Yosys wrote."""

    def with_places(entry: dict[str, Any]) -> dict[str, Any]:
        return {**entry, "src": shown(entry["src"])} if isinstance(entry.get("src"), str) else entry

    try:
        modules = json.loads(read_text(path), object_hook=with_places)["modules"]
    except (ValueError, KeyError, TypeError) as error:
        raise Fault(f"{path}: Yosys didn't write this file to its end; is the disk full?") from error
    name = top if top in modules else next((it for it, module in modules.items() if int(module.get("attributes", {}).get("top", "0"), 2)), "")
    if not name:
        raise Fault(f"--top {top}: the modules are {', '.join(modules) or 'none'}")
    return Design(modules[name])
