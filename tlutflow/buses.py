"""Buses: nets whose names are one name with an index, and numbers as their values.

The nets `x[0]`, `x[1]` and `x[2]` are the bus `x`, whose lowest digit is the net with the lowest index. Indices must follow one on
another and have at most nine digits, and no net may have the bus's name alone; else each of the nets stands for itself. Where
`TOP.ports.json` has a port or a register with these nets, its order of digits counts instead.
"""

from __future__ import annotations

import re
from typing import Iterable, Optional

from tlutflow.bus import Bus
from tlutflow.faults import Fault
from tlutflow.port_file import Ports

# A net with an index of more digits, which no bus has, stands for itself.
INDEXED = re.compile(r"(.+)\[(0|[1-9][0-9]{0,8})\]")


def buses_of(names: Iterable[str], ports: Optional[Ports] = None) -> dict[str, Bus]:
    """The buses of nets, in the order of their first nets, those of the design's ports and registers as it has them."""
    names = list(names)
    there = set(names)
    known: dict[str, Bus] = {}
    for bus in ports.buses.values() if ports else ():
        if there.issuperset(bus.nets):
            known.update((net, bus) for net in bus.nets)
        elif bus.is_turned:
            known.update((net, Bus(net, (net,))) for net in bus.nets if net in there)
    if not known:
        return indexed_buses(names)
    others = indexed_buses([name for name in names if name not in known])
    by_net = {**{net: bus for bus in others.values() for net in bus.nets}, **known}
    return {bus.name: bus for bus in map(by_net.__getitem__, names)}


def indexed_buses(names: list[str]) -> dict[str, Bus]:
    """The buses of nets by their indices alone."""
    indexed: dict[str, dict[int, str]] = {}
    for name in names:
        found = INDEXED.fullmatch(name)
        if found:
            indexed.setdefault(found[1], {})[int(found[2])] = name
    there = set(names)
    whole = {
        name: Bus(name, tuple(nets[it] for it in sorted(nets)), min(nets))
        for name, nets in indexed.items()
        if name not in there and max(nets) - min(nets) + 1 == len(nets)
    }
    buses: dict[str, Bus] = {}
    for name in names:
        found = INDEXED.fullmatch(name)
        bus = whole.get(found[1]) if found else None
        bus = bus or Bus(name, (name,))
        buses[bus.name] = bus
    return buses


def assigned(words: Iterable[str], buses: dict[str, Bus], what: str) -> dict[str, int]:
    """The bits of nets from arguments `NAME=VALUE`; NAME is a bus or a single net. `what` names the nets in a fault."""
    nets = {net: Bus(net, (net,)) for bus in buses.values() for net in bus.nets}
    bits: dict[str, int] = {}
    for word in words:
        name, equals, value = word.rpartition("=")
        if not equals or not name:
            raise Fault(f"{word} isn't NAME=VALUE")
        bus = buses.get(name) or nets.get(name)
        if bus is None:
            there = ", ".join(it.title for it in buses.values()) or "none"
            raise Fault(f"{name} is none of the {what}; these are: {there}")
        for net, bit in bus.digits(bus.value_of(value)).items():
            if net in bits:
                raise Fault(f"{word}: {net} already has a value on this line")
            bits[net] = bit
    return bits
