"""Runs of a netlist: what `tlut run` or `tlut pace` printed for a script, as numbers and as a waveform."""

from __future__ import annotations

from dataclasses import dataclass
from typing import Iterator

from tlutflow.bus import Bus
from tlutflow.faults import Fault
from tlutflow.parameters import Interface, read_interface
from tlutflow.runs.output import Output, Played, parse_output
from tlutflow.runs.script import Event, read_script
from tlutflow.runs.waveform import check_end, dump_of


@dataclass(frozen=True)
class View:
    """How a run is shown: the buses in two's complement, whether numbers are hexadecimal, and whether states are shown too."""

    signed: tuple[str, ...] = ()
    is_hex: bool = False
    with_states: bool = False

    @property
    def words(self) -> list[str]:
        """The arguments of `flow show` that choose it."""
        return [*(word for bus in self.signed for word in ("--signed", bus)), *(["--hex"] if self.is_hex else []), *(["--states"] if self.with_states else [])]


@dataclass(frozen=True)
class Run:
    """A run: the ports of its netlist, the events of its script, and what it printed."""

    interface: Interface
    events: list[Event]
    output: Output

    def waveform(self) -> str:
        """The run as a value change dump, up to its end or to the end of the output."""
        return dump_of(self.interface, self.events, self.output)

    def check_end(self) -> None:
        """Refuses an output that ends before the script does."""
        check_end(len(self.events), self.output)


def read_run(netlist: str, parameters: str, script: str, text: str, title: str) -> Run:
    """The run of a script, from its output and the title of this in a fault."""
    interface = read_interface(netlist, parameters)
    events = read_script(script, interface.regular)
    return Run(interface, events, parse_output(text, title))


class Viewer:
    """Writes cycle lines with numbers."""

    def __init__(self, interface: Interface, view: View):
        self.outputs = interface.outputs
        self.states = [state.name for state in interface.states]
        self.view = view
        self.buses = {name: interface.buses(names) for name, names in (("outputs", self.outputs), ("states", self.states))}
        known = [*self.buses["outputs"].values(), *(self.buses["states"].values() if view.with_states else ())]
        for name in view.signed:
            if name not in [bus.name for bus in known]:
                raise Fault(f"--signed {name}: the buses shown are {', '.join(bus.title for bus in known) or 'none'}")

    def number(self, bus: Bus, bits: dict[str, int]) -> str:
        """A bus with its value."""
        value = bus.number(bits, bus.name in self.view.signed)
        return f"{bus.name}={bus.text(value, self.view.is_hex)}"

    def numbers(self, which: str, names: list[str], digits: str) -> list[str]:
        """The buses of some nets, which have these digits, with their values."""
        bits = dict(zip(names, map(int, digits)))
        return [self.number(bus, bits) for bus in self.buses[which].values()]

    def line_of(self, event: Played) -> str:
        """The line of an event with numbers."""
        if event.word != "cycle":
            return event.text
        if len(event.outputs) != len(self.outputs) or len(event.states) != len(self.states):
            raise Fault(f"`{event.text[:60]}` doesn't fit this netlist, which has {len(self.outputs)} outputs and {len(self.states)} latches")
        shown = self.numbers("outputs", self.outputs, event.outputs)
        if self.view.with_states:
            shown += ["|", *self.numbers("states", self.states, event.states)]
        return " ".join(["cycle", *shown])

    def lines(self, output: Output) -> Iterator[str]:
        """The lines of a run."""
        if output.header:
            yield output.header.text
        yield from map(self.line_of, output.events)
