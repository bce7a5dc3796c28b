"""The configuration ports of `flow hdl` on an iCE40 and on a Xilinx device of series 7, beside the source with its parameters in registers."""

from __future__ import annotations

from typing import Any

from on_device.calls import FLOW, HOME, TOP, Room, must, program, room, version

from tlutflow.circuit import read_circuit
from tlutflow.devices.cells import Cells
from tlutflow.devices.count import source_of_verilog
from tlutflow.devices.families import FAMILIES, Family
from tlutflow.devices.registers import mapped, with_registers
from tlutflow.parameters import read_parameters
from tlutflow.text import write_text
from tlutflow.verilog.recipe import PREPARATION, Sources
from tlutflow.verilog.store import store_of

# The source of each design, and the initial values of its parameters that the source doesn't have.
DESIGNS: dict[str, tuple[str, dict[str, int]]] = {
    "fir": ("examples/fir/fir.v", {"c0": 5, "c1": 3, "c2": 6}),
    "vote8": (f"{HOME}/vote8.v", {}),
    "fir8": ("examples/fir8/fir8.v", {}),
}
# What each is mapped for. Yosys takes minutes for each port of the largest one at K 6.
KS = {"fir": (4, 6), "vote8": (4, 6), "fir8": (4,)}
ICE40, XILINX = FAMILIES["ice40"], FAMILIES["xilinx7"]
# The words of `flow hdl` as pages show them, and the device that they are for.
WAYS: dict[str, tuple[Family, list[str]]] = {
    "chain": (ICE40, ["--port", "chain"]),
    "chain --bits distinct": (ICE40, ["--port", "chain", "--bits", "distinct"]),
    "random": (ICE40, ["--port", "random"]),
    "random --bits distinct": (ICE40, ["--port", "random", "--bits", "distinct"]),
    "random --word 8": (ICE40, ["--port", "random", "--word", "8"]),
    "random --word 8 --bits distinct": (ICE40, ["--port", "random", "--word", "8", "--bits", "distinct"]),
    "xilinx random": (XILINX, ["--target", "xilinx", "--port", "random", "--no-pairs"]),
    "xilinx chain": (XILINX, ["--target", "xilinx", "--port", "chain", "--no-pairs"]),
}


def cells_of(it: Cells) -> dict[str, int]:
    """What the pages show: LUTs without CFGLUT5, carries, flip-flops and CFGLUT5."""
    return {"luts": it.luts - it.rewritable, "carries": it.carries, "flip_flops": it.flip_flops, "cfglut5": it.rewritable}


def registers(name: str, at: Room) -> dict[str, int]:
    """The source on an iCE40 with its parameters in registers."""
    steps, top, ports = source_of_verilog(Sources([f"{TOP}/{DESIGNS[name][0]}"], name), at.path(f"{name}.ports.json"))
    return cells_of(with_registers(steps, top, ports, read_parameters(at.path(f"{name}.par")), ICE40, at.folder)[0])


def prepared(name: str, at: Room) -> None:
    """Writes the netlist of a design with one preparation."""
    source, values = DESIGNS[name]
    words = [f"--param={port}={value}" for port, value in values.items()]
    must([FLOW, "verilog", "--abc", PREPARATION, source, "--top", name, *words, "--out", at.folder])


def of_size(name: str, k: int, at: Room) -> dict[str, Any]:
    """A design at a K: its LUTs, those that can be rewritten, the bits that change, and what Yosys counts with each port."""
    netlist, files = [at.path(f"{name}.blif"), at.path(f"{name}.par")], [at.path(f"{name}{k}_t.blif"), at.path(f"{name}{k}.ppc")]
    at.steps.make(f"K {k} map", [], netlist, files, lambda: must([program(), "map", str(k), *netlist, *files]))
    circuit = read_circuit(*files)
    store = store_of(circuit.pack, "changing")
    rows = {}
    for number, (way, (family, words)) in enumerate(WAYS.items()):
        top = f"{name}_{k}_{number}"
        path = at.path(f"{top}.v")
        write_text(path, must([FLOW, "hdl", *files, *words, "--module", top]))
        by = [family.commands[0], version("Yosys")]
        rows[way] = at.steps.make(f"K {k} {way}", by, [path], [], lambda: cells_of(mapped(path, top, family, at.path(top))))
    return {"luts": len(circuit.luts), "rewritable": len({circuit.lut_at[it] for it in store.places}), "bits": store.size, "rows": rows}


def measured(name: str, folder: str) -> dict[str, Any]:
    """All counts of a design."""
    at = room(folder, name)
    source, values = DESIGNS[name]
    at.steps.make("netlist", [values], [f"{TOP}/{source}"], [at.path(f"{name}.blif"), at.path(f"{name}.par")], lambda: prepared(name, at))
    parameters = read_parameters(at.path(f"{name}.par"))
    theirs = at.steps.make("registers", [list(parameters), ICE40.commands, version("Yosys")], [f"{TOP}/{source}"], [], lambda: registers(name, at))
    return {"parameters": len(parameters), "registers": theirs, "sizes": {str(k): of_size(name, k, at) for k in KS[name]}}
