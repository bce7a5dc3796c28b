"""What a design has that a netlist of gates and registers can't hold, or holds otherwise: each thing with its name and its line."""

from __future__ import annotations

import re
from typing import Any, Iterable

from tlutflow.bus import Bus
from tlutflow.faults import Fault
from tlutflow.verilog.design_json import Cell, Design

# Registers as Yosys's inner cells: the first letter behind the kind is the edge of the clock.
REGISTER = re.compile(r"\$_(?:DFFE?|S?DFFC?E?|ALDFFE?|DFFSRE?)_([NP])\w*_")
LATE_RESET = re.compile(r"\$_(?:DFFE?_[NP][NP][01][NP]?|ALDFFE?_\w+|DFFSRE?_\w+)_")
LATCH = re.compile(r"\$_(?:DLATCH|SR)\w*_")


def titles(design: Design, names: Iterable[str]) -> list[str]:
    """Names of bits: all of a net, or some that follow one another, as `count[3:0]`."""
    places: dict[str, list[int]] = {}
    for name in names:
        found = re.fullmatch(r"(.*?)(?:\[([0-9]{1,9})\])?", name)
        if found and found[2] is not None:
            places.setdefault(found[1], []).append(int(found[2]))
        else:
            places.setdefault(name, [])
    return [title for name, indices in places.items() for title in ranges(design, name, sorted(indices))]


def ranges(design: Design, name: str, indices: list[int]) -> list[str]:
    """A net with some of its indices, ascending."""
    if not indices:
        return [name]
    net = design.nets.get(name)
    if net is not None and net.bus.width == len(indices):
        return [net.bus.title]
    if len(indices) > 1 and indices == list(range(indices[0], indices[-1] + 1)):
        return [f"{name}[{indices[-1]}:{indices[0]}]"]
    return [f"{name}[{index}]" for index in indices]


def place_of(design: Design, bit: Any) -> str:
    """The place of a bit's net in the source."""
    return design.named[bit][1].place if bit in design.named else ""


def refuse_ports(design: Design, top: str) -> None:
    """Refuses ports of two directions, names that a netlist can't have, and a design without outputs."""
    for name, port in design.ports.items():
        place = design.nets[name].place if name in design.nets else ""
        if port["direction"] == "inout":
            raise Fault(f"{name}{place} is an inout: make it an input, an output and an enable")
        if "#" in name or name.endswith("\\"):
            raise Fault(f"{name}{place}: a name in a netlist can't contain # or end in \\")
    if not any(port["direction"] == "output" for port in design.ports.values()):
        raise Fault(f"{top} has no output, so nothing of it would be left")


def refuse_high_impedance(design: Design) -> None:
    """Refuses z as a value."""
    for cell in design.cells:
        if "z" in cell.bits(False):
            name = next(filter(None, map(design.name, cell.bits(True))), cell.kind)
            raise Fault(f"{name}{cell.place} gets the value z, which no LUT can output: use a multiplexer")
    for name, port in design.ports.items():
        if "z" in port["bits"]:
            raise Fault(f"{name}{design.nets[name].place} gets the value z, which no LUT can output: use a multiplexer")


def undriven(design: Design) -> list[str]:
    """Lines on the nets that are read, or are outputs, and have no driver."""
    driven = {bit for port in design.ports.values() if port["direction"] == "input" for bit in port["bits"]}
    driven.update(bit for cell in design.cells for bit in cell.bits(True))
    read = [bit for port in design.ports.values() if port["direction"] == "output" for bit in port["bits"]]
    read += [bit for cell in design.cells for bit in cell.bits(False)]
    missing = list(dict.fromkeys(bit for bit in read if isinstance(bit, int) and bit not in driven))
    return lines_by_place(design, [(place_of(design, bit), design.name(bit) or "") for bit in missing], "has no driver; Yosys chooses the value of what reads it, mostly 0")


def lines_by_place(design: Design, found: list[tuple[str, str]], text: str) -> list[str]:
    """A line for each net of some bits, which are given with their places in the source."""
    by_place: dict[str, list[str]] = {}
    for place, name in found:
        if name:
            by_place.setdefault(place, []).append(name)
    return [f"{title}{place} {text}" for place, names in by_place.items() for title in titles(design, names)]


def registers_of(design: Design) -> list[tuple[Cell, str]]:
    """The registers, each a bit, with their names."""
    return [(cell, design.name(cell.connections["Q"][0]) or cell.name) for cell in design.cells if REGISTER.fullmatch(cell.kind)]


def refuse_registers(design: Design) -> None:
    """Refuses latches, falling edges and made clocks, with the name and the line of what has them."""
    for cell in design.cells:
        if LATCH.fullmatch(cell.kind):
            name = design.name(cell.connections["Q"][0]) or cell.name
            raise Fault(f"{name}{cell.place} keeps a value without a clock, like a level-sensitive latch: write it as a register")
    inputs = {bit for port in design.ports.values() if port["direction"] == "input" for bit in port["bits"]}
    for cell, name in registers_of(design):
        clock = cell.connections["C"][0]
        edge = REGISTER.fullmatch(cell.kind)
        if edge and edge[1] == "N":
            raise Fault(f"{name}{cell.place} is clocked at the falling edge of {design.name(clock)}: use the rising edge of one input")
        if clock not in inputs:
            made = design.name(clock) or "a net that the design makes"
            remedy = "use the rising edge of one input, and turn gates and dividers into enables"
            raise Fault(f"{name}{cell.place} has the clock {made}, which isn't an input: {remedy}")


def late_resets(design: Design) -> list[str]:
    """Lines about the registers with an asynchronous reset."""
    found = [(cell.place, name) for cell, name in registers_of(design) if LATE_RESET.fullmatch(cell.kind)]
    text = "has an asynchronous reset; in the netlist it waits for the next edge, so a pulse between two edges is lost"
    return lines_by_place(design, found, text)


def register_buses(design: Design, names: list[str]) -> list[Bus]:
    """The nets of which all bits are registers."""
    there = set(names)
    return [net.bus for net in design.nets.values() if not net.is_hidden and net.bus.width > 1 and there.issuperset(net.bus.nets)]


def register_names(before: Design, after: Design, states: list[str]) -> list[str]:
    """The Verilog names of a netlist's latches, of which these are the nets: a register's cell keeps its name while resets and enables
    become logic."""
    known = {cell.name: name for cell, name in registers_of(before)}
    bit_of = {title: bit for net in after.nets.values() for title, bit in zip(net.bus.nets, net.bits)}
    cell_at = {cell.connections["Q"][0]: cell.name for cell in after.cells if REGISTER.fullmatch(cell.kind)}
    return [known.get(cell_at.get(bit_of.get(state), ""), state) for state in states]
