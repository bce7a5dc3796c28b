"""TOP.ports.json: what a design says of its ports and registers beyond what a netlist can hold.

`flow verilog` writes it beside the netlist. It has the order of each port's bits, which ports are signed, and the Verilog names of the
registers in the order of the netlist's latches. Every subcommand that reads a netlist, a template or a pack looks for it in the same folder.
"""

from __future__ import annotations

import json
import os
import re
from dataclasses import dataclass, field
from typing import Any, Iterable, Optional

from tlutflow.bus import Bus
from tlutflow.faults import Fault
from tlutflow.text import read_text, write_text

END = ".ports.json"


@dataclass(frozen=True)
class Ports:
    """The buses of ports and of registers, and the registers' names in the order of the latches."""

    buses: dict[str, Bus] = field(default_factory=dict)
    registers: list[str] = field(default_factory=list)

    def register_names(self, latches: int, taken: Iterable[str]) -> list[str]:
        """The names of this many latches, none of which is taken; empty if the file belongs to another netlist."""
        if len(self.registers) != latches:
            return []
        used = set(taken)
        names = []
        for name in self.registers:
            while name in used:
                found = re.fullmatch(r"(.*?)((?:\[\d+\])?)", name)
                name = f"{found[1]}_reg{found[2]}" if found else f"{name}_reg"
            used.add(name)
            names.append(name)
        return names


def file_name(name: str) -> str:
    """The name of a module as the name of a file."""
    return re.sub(r"[^A-Za-z0-9_.$+-]", "_", name).lstrip(".-") or "_"


def find_ports(files: Iterable[str], model: Optional[str]) -> Ports:
    """The ports of the first file TOP.ports.json beside some files: it has the name of the model, or of one of the files."""
    found = ports_path(files, model)
    return read_ports_file(found) if found else Ports()


def ports_path(files: Iterable[str], model: Optional[str]) -> Optional[str]:
    """The first file TOP.ports.json beside some files, or None."""
    for path in files:
        folder = os.path.dirname(path)
        stems = [file_name(model)] if model else []
        stems.append(os.path.basename(path).rsplit(".", 1)[0])
        for stem in stems:
            found = os.path.join(folder, stem + END)
            if os.path.isfile(found):
                return found
    return None


def keep_ports(netlist: str, made: str) -> None:
    """Puts the file TOP.ports.json of a netlist beside another netlist with the same ports and registers, and under its name."""
    found, target = ports_path([netlist], None), made.rsplit(".", 1)[0] + END
    if found and os.path.abspath(found) != os.path.abspath(target):
        write_text(target, read_text(found))


def read_ports_file(path: str) -> Ports:
    """The ports of a file."""
    try:
        given = json.loads(read_text(path))
        buses = [bus_of_json(it) for it in [*given["ports"], *given["buses"]]]
        registers = [str(it) for it in given["registers"]]
    except (ValueError, KeyError, TypeError, AttributeError, RecursionError):
        raise Fault(f"{path}: `flow verilog` didn't write it; remove it, or run `flow verilog` again") from None
    return Ports({bus.name: bus for bus in buses}, registers)


def bus_of_json(given: dict[str, Any]) -> Bus:
    """The bus of an entry."""
    low = None if given["low"] is None else int(given["low"])
    return Bus(str(given["name"]), tuple(map(str, given["bits"])), low, bool(given["turned"]), bool(given["signed"]))


def json_of_bus(bus: Bus, **more: Any) -> dict[str, Any]:
    """The entry of a bus. Its bits are in order, the lowest digit first."""
    return {"name": bus.name, **more, "bits": list(bus.nets), "low": bus.low, "turned": bus.is_turned, "signed": bus.is_signed}
