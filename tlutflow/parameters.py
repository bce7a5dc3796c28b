"""Parameter lists, and a netlist's ports once its parameters are known."""

from __future__ import annotations

from dataclasses import dataclass, field
from typing import Iterable

from tlutflow.bus import Bus
from tlutflow.buses import buses_of
from tlutflow.faults import Fault
from tlutflow.netlist import Library, read_library
from tlutflow.port_file import Ports, find_ports
from tlutflow.text import logical_lines, read_text


@dataclass(frozen=True)
class State:
    """A latch as a run shows it: its net, and its value at the start."""

    name: str
    start: int


@dataclass(frozen=True)
class Interface:
    """What a run of a netlist takes and shows, each in its order."""

    model: str
    regular: list[str]
    parameters: dict[str, int]
    outputs: list[str]
    states: list[State]
    clocks: list[str] = field(default_factory=list)
    ports: Ports = Ports()

    def buses(self, names: Iterable[str]) -> dict[str, Bus]:
        """The buses of some nets, as the design's ports have them."""
        return buses_of(names, self.ports)


def read_parameters(path: str) -> dict[str, int]:
    """The parameters of a list, with their values at the start, in the order of their lines."""
    return parse_parameters(read_text(path), path)


def parse_parameters(text: str, file: str) -> dict[str, int]:
    """The parameters of the text of a list; `file` is its name in a fault."""
    values: dict[str, int] = {}
    for line in logical_lines(text):
        if len(line.tokens) != 2 or line.tokens[1] not in ("0", "1"):
            raise Fault(f"{file}: line {line.number} isn't a name and 0 or 1")
        if line.tokens[0] in values:
            raise Fault(f"{file}: line {line.number}: {line.tokens[0]} is on an earlier line already")
        values[line.tokens[0]] = int(line.tokens[1])
    return values


def parameter_list(values: dict[str, int]) -> str:
    """The text of a parameter list."""
    return "".join(f"{name} {bit}\n" for name, bit in values.items())


def data_inputs(library: Library) -> list[str]:
    """The inputs of the main model that are no clock nets."""
    clocks = set(library.clock_nets())
    return [name for name in library.main.all_inputs() if name not in clocks]


def interface_of(library: Library, parameters: dict[str, int], file: str, ports: Ports = Ports()) -> Interface:
    """A netlist's ports, with some inputs as its parameters; `file` is the list's name in a fault."""
    inputs = data_inputs(library)
    for name in parameters:
        if name not in inputs:
            raise Fault(f"{file}: {name} isn't an input of {library.file} that can be a parameter")
    latches = library.flat_latches()
    names = ports.register_names(len(latches), inputs) or [it.net for it in latches]
    states = [State(name, it.start) for name, it in zip(names, latches)]
    regular = [name for name in inputs if name not in parameters]
    return Interface(library.main.name, regular, parameters, library.main.outputs, states, library.clock_nets(), ports)


def read_interface(netlist: str, parameters: str) -> Interface:
    """The ports of a netlist's file with a list's file."""
    library = read_library(netlist)
    return interface_of(library, read_parameters(parameters), parameters, find_ports([netlist], library.main.name))
