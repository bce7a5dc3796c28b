"""Families of devices: what `--device` chooses for each, and what each counts of a mapped circuit."""

from __future__ import annotations

from dataclasses import dataclass

from tlutflow.circuit import Circuit
from tlutflow.devices.rings import Layout
from tlutflow.text import count
from tlutflow.verilog.store import store_of


@dataclass(frozen=True)
class Family:
    """A family of devices: its name and title, the values of K that are tried, the target, the port, the word of `random` and the bits of
    `flow hdl`, what is counted, why these are chosen, and the commands by which Yosys synthesises for it, of which the best counts."""

    name: str
    title: str
    ks: tuple[int, ...]
    target: str
    port: str
    word: int
    bits: str
    unit: str
    reason: str
    commands: tuple[str, ...]
    models: str

    def cost(self, circuit: Circuit) -> int:
        """What a circuit takes of what is counted, without its port."""
        if self.target == "xilinx":
            return Layout(circuit, store_of(circuit.pack, "changing"), True).sites
        return flip_flop_cells(circuit)


XILINX = "synth_xilinx -flatten -noiopad -noclkbuf -nodsp"
IN_FLIP_FLOPS = "bits that change are flip-flops here, so K and the rule are those with the fewest LUTs and flip-flops, and equal bits share one"
FAMILIES = {
    it.name: it
    for it in (
        Family(
            *("xilinx7", "Xilinx 7 series", (4, 5, 6), "xilinx", "chain", 4, "changing", "LUT site"),
            "LUTs whose bits change are CFGLUT5, and two functions share a site, so K and the rule are those with the fewest sites; a chain needs no decoder",
            (XILINX, f"{XILINX} -nowidelut", f"{XILINX} -abc9"),
            "+/xilinx/cells_sim.v",
        ),
        Family("ice40", "Lattice iCE40", (3, 4), "generic", "chain", 8, "distinct", "logic cell", IN_FLIP_FLOPS, ("synth_ice40 -flatten",), "+/ice40/cells_sim.v"),
        Family("ecp5", "Lattice ECP5", (3, 4), "generic", "chain", 8, "distinct", "logic cell", IN_FLIP_FLOPS, ("synth_ecp5 -flatten -nomux",), "+/ecp5/cells_sim.v"),
        Family("generic", "any device with LUTs of four inputs", (3, 4), "generic", "chain", 8, "distinct", "logic cell", IN_FLIP_FLOPS, ("synth -flatten -lut 4",), ""),
    )
}


def flip_flop_cells(circuit: Circuit) -> int:
    """How many cells of a LUT of four inputs and a flip-flop a circuit takes about, whose bits that change are flip-flops in a chain and in
    its copy: a LUT chooses among its bits by a tree, which has at least (n - 1) / 3 LUTs for n inputs."""
    store = store_of(circuit.pack, "distinct")
    changing = {circuit.lut_at[address] for address in store.places}
    found = 2 * store.size
    for number, lut in enumerate(circuit.luts):
        bits = {store.places[address] for address in lut.addresses if address in store.places}
        inputs = len(lut.leaves) + len({cell for cell, _ in bits})
        found += max(1, -(-(inputs - 1) // 3)) if number in changing or lut.leaves else 0
    return found


def told(family: Family, what: str) -> str:
    """What was chosen, and why."""
    return f"device {family.name}: {what}; {family.reason}"


def costs_text(family: Family, found: dict[int, int]) -> str:
    """The least count at each K."""
    return ", ".join(f"K {k} {count(many, family.unit)}" for k, many in sorted(found.items()))
