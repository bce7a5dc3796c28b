"""Clock rates on an iCE40 by nextpnr, of three designs in three forms: the source with its parameters in a chain of flip-flops, the tunable
circuit of `flow hdl --device ice40` at K 4, and the netlist of `tlut spec` for the initial values as `flow device` makes it.

The rate is that of the design's own clock, the median of several seeds of nextpnr; paths from inputs, to outputs and from the configuration's
clock don't count."""

from __future__ import annotations

import os
import re
from typing import Any

from on_device.calls import FLOW, HOME, TOP, Room, must, program, room, version

from tlutflow import tools
from tlutflow.devices.cells import counted, read_cells
from tlutflow.devices.count import source_of_verilog
from tlutflow.devices.families import FAMILIES
from tlutflow.devices.registers import HELD, mapped, with_registers
from tlutflow.parameters import read_parameters
from tlutflow.text import write_text
from tlutflow.verilog.recipe import PREPARATION, Sources

DESIGNS = ("rules", "branches", "pulses")
PART = ("--hx8k", "--package", "ct256", "--pcf-allow-unconstrained")
FAMILY = FAMILIES["ice40"]
SEEDS = (1, 2, 3)
# For each form its netlist and the module.
Forms = dict[str, tuple[str, str]]


def forms(name: str, at: Room) -> Forms:
    """Where the netlists of a design are."""
    return {"registers": (at.path("held0.json"), HELD), "hdl": (at.path("m.json"), "m"), "device": (at.path(f"spec/{name}.json"), name)}


def make_forms(name: str, at: Room) -> None:
    """Makes the three netlists of a design for nextpnr."""
    source, folder = f"{TOP}/{HOME}/{name}.v", at.folder
    must([FLOW, "verilog", "--abc", PREPARATION, source, "--top", name, "--out", folder])
    files = [f"{name}.blif", f"{name}.par"]
    must([program(), "--compact", "map", "4", *files, "t.blif", "p.ppc"], "", folder)
    must([program(), "--compact", "spec", "4", *files, "s.blif"], "", folder)
    must([FLOW, "device", "s.blif", "--target", "ice40", "--no-place", "--out", "spec"], "", folder)
    write_text(at.path("m.v"), must([FLOW, "hdl", "t.blif", "p.ppc", "--device", "ice40", "--module", "m"], "", folder))
    steps, top, ports = source_of_verilog(Sources([source], name), at.path(f"{name}.ports.json"))
    with_registers(steps, top, ports, read_parameters(at.path(f"{name}.par")), FAMILY, folder)
    mapped(at.path("m.v"), "m", FAMILY, at.path("m"))


def rate(file: str, seed: int) -> float:
    """The clock rate in MHz that nextpnr reports after routing with a seed."""
    words = [tools.need(tools.NEXTPNR_ICE40, "clock rates"), *PART, "--seed", str(seed), "--json", file]
    ran = tools.run(words)
    rates = [float(it) for clock, it in re.findall(r"Max frequency for clock +'([^']*)': ([\d.]+) MHz", ran.stderr) if not clock.startswith("cfg")]
    if ran.returncode or not rates:
        raise SystemExit(f"{' '.join(words)}: {ran.stderr[-500:]}")
    return rates[-1]


def measured(name: str, folder: str) -> dict[str, Any]:
    """The LUTs, flip-flops and the clock rate of a design in each form."""
    at = room(folder, name)
    made = forms(name, at)
    files = [file for file, _ in made.values()]
    os.makedirs(at.path("spec"), exist_ok=True)
    at.steps.make("netlists", [FAMILY.commands, version("Yosys"), version("tlut")], [f"{TOP}/{HOME}/{name}.v"], files, lambda: make_forms(name, at))
    found: dict[str, Any] = {}
    for form, (file, top) in made.items():
        it = counted(read_cells(file, top), False)
        rates = [at.steps.make(f"{form}, seed {seed}", list(PART), [file], [], lambda: rate(file, seed)) for seed in SEEDS]
        found[form] = {"luts": it.luts, "flip_flops": it.flip_flops, "mhz": sorted(rates)[len(rates) // 2]}
    return found
