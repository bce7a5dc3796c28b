"""A mapped circuit as the report page's picture has it: nodes by numbers, each LUT after those that it reads."""

from __future__ import annotations

from itertools import groupby
from typing import Any, Iterable

from tlutflow.buses import buses_of
from tlutflow.circuit import Circuit, renamed
from tlutflow.netlist import Library
from tlutflow.port_file import Ports


class Groups:
    """Nets with their buses, among which some are listed."""

    def __init__(self, nets: Iterable[str], ports: Ports = Ports()):
        self.buses = list(buses_of(nets, ports).values())
        self.places = {net: (number, place) for number, bus in enumerate(self.buses) for place, net in enumerate(bus.nets)}

    def listed(self, names: Iterable[str], most: int = 6) -> str:
        """A short list of these nets: a whole bus by its name with its range, others one by one."""
        words: list[str] = []
        for number, places in groupby(sorted(self.places[name] for name in set(names)), key=lambda it: it[0]):
            bus, inside = self.buses[number], [place for _, place in places]
            words += [bus.title] if len(inside) == bus.width else [bus.nets[place] for place in inside]
        more = f" and {len(words) - most} more" if len(words) > most else ""
        return ", ".join(words[:most]) + more


def with_names(circuit: Circuit, source: Library) -> Circuit:
    """The circuit with the names that its flip-flops have in its source, which has them in the same order. Names that the design's own
    ports file gave stay."""
    latches = source.flat_latches()
    if circuit.ports.registers or len(latches) != len(circuit.latches):
        return circuit
    taken = {*circuit.inputs, *circuit.lut_of}
    return renamed(circuit, [its.net if its.net not in taken else own.state for own, its in zip(circuit.latches, latches)])


def view_of(circuit: Circuit) -> dict[str, Any]:
    """The picture's data."""
    states = [latch.state for latch in circuit.latches]
    sources = [*circuit.inputs, *states]
    place = {net: number for number, net in enumerate([*sources, *(lut.net for lut in circuit.luts)])}
    nodes: list[dict[str, Any]] = [{"name": net, "kind": "input", "depth": 0, "from": []} for net in circuit.inputs]
    for latch in circuit.latches:
        node: dict[str, Any] = {"name": latch.state, "kind": "flop", "depth": 0, "from": [], "next": latch.source}
        if latch.source in circuit.lut_of:
            node["root"] = place[latch.source]
        nodes.append(node)
    nodes += lut_nodes(circuit, place, sources)
    path = [place[net] for net in circuit.longest_path() if net in place]
    if path and nodes[path[-1]]["kind"] in ("flop", "input"):
        path = path[:-1] if len(path) > 1 and nodes[path[-1]]["depth"] == 0 else path
    outputs = [{"name": name, "root": place[root]} for name, root in circuit.roots.items() if root in place]
    return {"nodes": nodes, "outputs": outputs, "path": path, "end": end_of(circuit)}


def end_of(circuit: Circuit) -> str:
    """The output or flip-flop where the critical path ends."""
    path = circuit.longest_path()
    return path[-1] if path else ""


def lut_nodes(circuit: Circuit, place: dict[str, int], sources: list[str]) -> list[dict[str, Any]]:
    """The LUTs: what they read, what they drive, and which parameters their bits read."""
    nodes = []
    among, parameters = Groups(sources, circuit.ports), Groups(circuit.pack.parameters, circuit.ports)
    drives = driven(circuit)
    supports: dict[str, int] = {net: 1 << number for number, net in enumerate(sources)}
    for lut in circuit.luts:
        support = 0
        for leaf in lut.leaves:
            support |= supports[leaf]
        supports[lut.net] = support
        read = circuit.parameters_in(circuit.support(lut))
        within = [net for number, net in enumerate(sources) if support >> number & 1]
        last = f" to {lut.addresses[-1]}" if lut.size > 1 else ""
        node = {
            "name": lut.net,
            "kind": "tunable" if read else "lut",
            "depth": max(circuit.depths[lut.net], 1),
            "from": [place[leaf] for leaf in lut.leaves],
            "bits": f"{lut.first}{last}",
            "support": among.listed(within) or "nothing",
        }
        if read:
            node["params"], node["read"] = parameters.listed(read, 10), parameters.listed(read, 1).split(" and ")[0]
        if lut.net in drives:
            node["drives"] = ", ".join(drives[lut.net][:4])
        nodes.append(node)
    return nodes


def driven(circuit: Circuit) -> dict[str, list[str]]:
    """The outputs and next states that each LUT is."""
    found: dict[str, list[str]] = {}
    for output, root in circuit.roots.items():
        found.setdefault(root, []).append(f"output {output}")
    for latch in circuit.latches:
        found.setdefault(latch.source, []).append(f"the next state of {latch.state}")
    return found
