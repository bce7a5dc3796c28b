"""A run as a waveform: a value change dump (VCD), which GTKWave and simulators open.

Each event but `image` has a slot of ten units. In that of a cycle the inputs, the parameters, the states before the clock's edge and the
outputs are shown together; the edge is at the end of the slot. In the others the outputs aren't known, since the run doesn't print them.
"""

from __future__ import annotations

from dataclasses import dataclass, field
from typing import Iterator, Optional

from tlutflow.bus import Bus
from tlutflow.buses import buses_of
from tlutflow.faults import Fault
from tlutflow.parameters import Interface
from tlutflow.port_file import Ports
from tlutflow.runs.output import Output, Played
from tlutflow.runs.script import Event, is_line_of

SLOT = 10
# What ends, begins or declares something in a dump.
KEYWORDS = {f"${it}" for it in "comment date dumpall dumpoff dumpon dumpvars end enddefinitions scope timescale upscope var version".split()}
# The characters of a variable's short name.
FIRST, LAST = 33, 126


@dataclass
class Signal:
    """A variable of the dump: its short name, its bus, and what it shows."""

    code: str
    bus: Bus
    shown: Optional[str] = None


@dataclass
class Dump:
    """A dump that grows: its signals by scopes, its head, and its lines."""

    ports: Ports = Ports()
    signals: dict[str, list[Signal]] = field(default_factory=dict)
    lines: list[str] = field(default_factory=list)
    last: int = -1

    def add(self, scope: str, bus: Bus) -> Signal:
        """Adds a bus to a scope."""
        signal = Signal(code_of(sum(map(len, self.signals.values()))), bus)
        self.signals.setdefault(scope, []).append(signal)
        return signal

    def add_nets(self, scope: str, names: list[str]) -> None:
        """Adds the buses of some nets to a scope."""
        for bus in buses_of(names, self.ports).values():
            self.add(scope, bus)

    def put(self, time: int, signal: Signal, digits: str) -> None:
        """Shows digits, the highest first, from a time on."""
        if signal.shown == digits:
            return
        signal.shown = digits
        if time != self.last:
            self.lines.append(f"#{time}")
            self.last = time
        self.lines.append(f"{digits}{signal.code}" if signal.bus.width == 1 else f"b{digits} {signal.code}")

    def put_bits(self, time: int, scope: str, bits: dict[str, str]) -> None:
        """Shows the bits of a scope's nets."""
        for signal in self.signals.get(scope, []):
            self.put(time, signal, "".join(bits[net] for net in reversed(signal.bus.nets)))

    def text(self, comment: str, model: str) -> str:
        """The dump, up to a last time."""
        head = [f"$comment {comment} $end", "$timescale 1ns $end", f"$scope module {word_of(model)} $end"]
        for scope, signals in self.signals.items():
            head += [f"$scope module {scope} $end", *(declaration(signal) for signal in signals), "$upscope $end"]
        return "\n".join([*head, "$upscope $end", "$enddefinitions $end", *self.lines, ""])


def code_of(number: int) -> str:
    """The short name of a variable."""
    base = LAST - FIRST + 1
    code = chr(FIRST + number % base)
    while number >= base:
        number = number // base - 1
        code += chr(FIRST + number % base)
    return code


def word_of(name: str) -> str:
    """A name as one token of printable characters, which isn't a keyword of the dump."""
    word = "".join(it if 32 < ord(it) < 127 else "_" for it in name)
    return f"\\{word}" if word in KEYWORDS else word


def declaration(signal: Signal) -> str:
    """The line that declares a variable."""
    bus = signal.bus
    return f"$var wire {bus.width} {signal.code} {word_of(bus.name)}{bus.span and ' '}{bus.span} $end"


def dump_of(interface: Interface, events: list[Event], output: Output) -> str:
    """The dump of a run: what its script gave and what it printed."""
    dump = Dump(interface.ports)
    dump.add_nets("inputs", interface.regular)
    dump.add_nets("parameters", list(interface.parameters))
    dump.add_nets("outputs", interface.outputs)
    dump.add_nets("states", [state.name for state in interface.states])
    clock = dump.add("run", Bus("clock", ("clock",)))
    written = dump.add("run", Bus("bits_written", tuple(f"bits_written[{place}]" for place in range(32)), 0))
    player = Player(interface, dump, clock, written)
    for event, played in pairs(events, output):
        player.play(event, played)
    dump.put(player.time, clock, "1" if player.ticked else "0")
    dump.lines.append(f"#{player.time + SLOT}")
    return dump.text("a run of tlut", interface.model)


def check_end(events: int, output: Output) -> None:
    """Refuses an output that ends before its script does, as that of a run which a fault ended."""
    if len(output.events) < events:
        raise Fault(f"the output ends at event {len(output.events)} of {events}")


def pairs(events: list[Event], output: Output) -> Iterator[tuple[Event, Played]]:
    """The events with their lines. A run that a fault ended has fewer lines than events."""
    if len(output.events) > len(events):
        raise Fault(f"the output has {len(output.events)} lines for {len(events)} events: it belongs to another script")
    for event, played in zip(events, output.events):
        if not is_line_of(event, played.word):
            raise Fault(f"the output has `{played.text[:60]}` where the script has {event.word}: it belongs to another script")
        yield event, played


class Player:
    """Shows events one after another."""

    def __init__(self, interface: Interface, dump: Dump, clock: Signal, written: Signal):
        self.interface, self.dump, self.clock, self.written = interface, dump, clock, written
        self.time, self.ticked = 0, False
        self.inputs = {name: "x" for name in interface.regular}
        self.parameters = {name: str(bit) for name, bit in interface.parameters.items()}
        self.states = {state.name: str(state.start) for state in interface.states}

    def play(self, event: Event, played: Played) -> None:
        """Shows an event in its own slot."""
        if event.word == "image":
            return
        outputs = {name: "x" for name in self.interface.outputs}
        if event.word in ("set", "ask"):
            self.parameters.update({name: str(bit) for name, bit in event.values.items()})
        if event.word in ("cycle", "tick"):
            self.inputs.update({name: str(bit) for name, bit in event.values.items()})
        if played.word == "cycle":
            self.check_widths(played)
            outputs = dict(zip(self.interface.outputs, played.outputs))
        self.show(outputs, len(played.writes))
        self.ticked = played.word == "cycle"
        if self.ticked:
            self.states = dict(zip(self.states, played.states))
        self.time += SLOT

    def show(self, outputs: dict[str, str], writes: int) -> None:
        """Shows the values in the slot that begins now."""
        dump, time = self.dump, self.time
        dump.put(time, self.clock, "1" if self.ticked else "0")
        dump.put(time, self.written, f"{writes:b}")
        dump.put_bits(time, "inputs", self.inputs)
        dump.put_bits(time, "parameters", self.parameters)
        dump.put_bits(time, "states", self.states)
        dump.put_bits(time, "outputs", outputs)
        dump.put(time + SLOT // 2, self.clock, "0")

    def check_widths(self, played: Played) -> None:
        """Refuses a line of another netlist."""
        if len(played.outputs) != len(self.interface.outputs) or len(played.states) != len(self.states):
            shape = f"{len(self.interface.outputs)} outputs and {len(self.states)} latches"
            raise Fault(f"`{played.text[:60]}` doesn't fit this netlist, which has {shape}")
