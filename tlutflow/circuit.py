"""The mapped circuit of a template and its pack: LUTs, latches, outputs, depths, paths and cones."""

from __future__ import annotations

from dataclasses import dataclass
from functools import cached_property
from typing import Iterable, Optional

from tlutflow.bus import Bus
from tlutflow.buses import buses_of
from tlutflow.faults import Fault
from tlutflow.netlist import Latch, Library, read_library
from tlutflow.pack import Pack, read_pack
from tlutflow.port_file import Ports, find_ports


@dataclass(frozen=True)
class Lut:
    """A LUT: its net, its leaves, leaf 0 first, and the addresses of its configuration bits, 2^leaves from `first` on."""

    net: str
    leaves: list[str]
    first: int

    @property
    def size(self) -> int:
        """How many configuration bits it has."""
        return 1 << len(self.leaves)

    @property
    def addresses(self) -> range:
        """The addresses of its bits."""
        return range(self.first, self.first + self.size)


@dataclass(frozen=True)
class Circuit:
    """A mapped circuit. `inputs` are the regular ones, `clock` the net of the latch controls or None, and `roots` has for each output
    the net whose value it is."""

    name: str
    inputs: list[str]
    clock: Optional[str]
    roots: dict[str, str]
    latches: list[Latch]
    luts: list[Lut]
    pack: Pack
    ports: Ports = Ports()

    def buses(self, names: Iterable[str]) -> dict[str, Bus]:
        """The buses of some nets, as the ports of the design have them."""
        return buses_of(names, self.ports)

    @cached_property
    def lut_of(self) -> dict[str, Lut]:
        """The LUT of each net that a LUT drives."""
        return {lut.net: lut for lut in self.luts}

    @property
    def nets(self) -> set[str]:
        """The nets of inputs and LUTs."""
        return {*self.inputs, *self.lut_of}

    @cached_property
    def lut_at(self) -> list[int]:
        """For each configuration bit the number of its LUT."""
        return [number for number, lut in enumerate(self.luts) for _ in lut.addresses]

    @cached_property
    def depths(self) -> dict[str, int]:
        """The depth of each LUT: 0 without leaves, otherwise one more than its deepest leaf."""
        depths: dict[str, int] = {}
        for lut in self.luts:
            depths[lut.net] = 1 + max(depths.get(leaf, 0) for leaf in lut.leaves) if lut.leaves else 0
        return depths

    @property
    def depth(self) -> int:
        """The greatest depth of a LUT."""
        return max(self.depths.values(), default=0)

    @cached_property
    def supports(self) -> list[int]:
        """For each bit the parameters that it reads, as a number with a digit for each."""
        return self.pack.supports()

    def support(self, lut: Lut) -> int:
        """The parameters that some bit of a LUT reads, as a number with a binary digit for each."""
        read = 0
        for address in lut.addresses:
            read |= self.supports[address]
        return read

    def parameters_in(self, support: int) -> list[str]:
        """The names of the parameters of such a number."""
        return [name for place, name in enumerate(self.pack.parameters) if support >> place & 1]

    def longest_path(self, within: Optional[set[str]] = None) -> list[str]:
        """The nets of the critical path of the circuit, or of a cone: from an input or a latch through LUTs to an output or a latch.
        Empty without LUTs."""
        luts = [lut for lut in self.luts if within is None or lut.net in within]
        if not luts:
            return []
        at = max(luts, key=lambda lut: self.depths[lut.net])
        path = [at.net]
        while path[0] in self.lut_of and self.lut_of[path[0]].leaves:
            path.insert(0, max(self.lut_of[path[0]].leaves, key=lambda leaf: self.depths.get(leaf, 0)))
        path.append(self.reader_of(at.net))
        return path

    def reader_of(self, net: str) -> str:
        """The first output or latch whose value or next state a net is."""
        for output, root in self.roots.items():
            if root == net:
                return output
        return next((latch.state for latch in self.latches if latch.source == net), net)

    def cone(self, ends: Iterable[str]) -> set[str]:
        """The nets on which some nets depend within one cycle, including themselves: LUTs, latches and inputs."""
        found: set[str] = set()
        waiting = list(ends)
        while waiting:
            net = waiting.pop()
            if net not in found:
                found.add(net)
                lut = self.lut_of.get(net)
                waiting += lut.leaves if lut else []
        return found


def read_circuit(template: str, pack: str) -> Circuit:
    """The mapped circuit of the two files that `map` writes, with the names that the design has for its ports and registers."""
    library = read_library(template)
    ports = find_ports([template, pack], library.main.name)
    circuit = circuit_of(library, read_pack(pack), pack, ports)
    return renamed(circuit, ports.register_names(len(circuit.latches), circuit.nets))


def is_template(library: Library) -> bool:
    """Whether a netlist is a template: its further `.inputs` lines have the configuration bits, counted, and each LUT ends with its own."""
    _, *rooms = library.main.input_lines or [[]]
    bits = [name for room in rooms for name in room]
    prefix = bits[0][:-1] if bits else ""
    counted = bits == [f"{prefix}{place}" for place in range(len(bits))]
    leaves = [max(0, len(cover.inputs) - len(room)) for room, cover in zip(rooms, library.main.covers)]
    ends = [len(room) == 1 << many and cover.inputs[many:] == room for many, room, cover in zip(leaves, rooms, library.main.covers)]
    return counted and len(ends) == len(rooms) > 0 and all(ends)


def bare_circuit(pack: Pack, file: str) -> Circuit:
    """What is known of a circuit from its pack alone: the bits and the parameters."""
    return Circuit("pack", [], None, {}, [], [], pack, find_ports([file], None))


def renamed(circuit: Circuit, states: list[str]) -> Circuit:
    """A circuit whose latches have these names."""
    new = {latch.state: name for latch, name in zip(circuit.latches, states)}
    latches = [Latch(new.get(it.source, it.source), new[it.state], it.control, it.init) for it in circuit.latches] if new else circuit.latches
    luts = [Lut(it.net, [new.get(leaf, leaf) for leaf in it.leaves], it.first) for it in circuit.luts]
    roots = {output: new.get(root, root) for output, root in circuit.roots.items()}
    return Circuit(circuit.name, circuit.inputs, circuit.clock, roots, latches, luts, circuit.pack, circuit.ports)


def circuit_of(library: Library, pack: Pack, file: str, ports: Ports = Ports()) -> Circuit:
    """The mapped circuit of a template and its pack; `file` is the pack's name in a fault."""
    main = library.main
    inputs, *rooms = main.input_lines or [[]]
    clock = next((latch.control for latch in main.latches if latch.control), None)
    luts = []
    first = 0
    for room, cover in zip(rooms, main.covers):
        held = set(room)
        leaves = [name for name in cover.inputs if name not in held]
        luts.append(Lut(cover.output, leaves, first))
        if cover.inputs[len(leaves) :] != room or luts[-1].size != len(room):
            raise Fault(f"{library.file}: not a template written by map: the LUT {cover.output} doesn't have its bits as inputs")
        first += len(room)
    if not first and pack.bits:
        raise Fault(f"{library.file}: not a template written by map: it has no configuration bits")
    if first != len(pack.bits):
        raise Fault(f"{library.file} has {first} configuration bits and {file} has {len(pack.bits)}: they come from different calls of map")
    wires = {cover.output: (cover.inputs or [cover.output])[0] for cover in main.covers[len(luts) :]}
    roots = {name: wires.get(name, name) for name in main.outputs}
    circuit = Circuit(main.name, [it for it in inputs if it != clock], clock, roots, main.latches, luts, pack, ports)
    refuse_undriven(circuit, library.file)
    return circuit


def refuse_undriven(circuit: Circuit, file: str) -> None:
    """Refuses a template in which something reads a net that nothing before it drives."""
    driven = {*circuit.inputs, *(latch.state for latch in circuit.latches)}
    for lut in circuit.luts:
        for leaf in lut.leaves:
            if leaf not in driven:
                raise Fault(f"{file}: not a template written by map: the LUT {lut.net} reads {leaf}, which nothing before it drives")
        driven.add(lut.net)
    for net in (*circuit.roots.values(), *(latch.source for latch in circuit.latches)):
        if net not in driven:
            raise Fault(f"{file}: not a template written by map: nothing drives {net}")
