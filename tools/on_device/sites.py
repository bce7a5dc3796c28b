"""Six designs on a Xilinx device of series 7: what each takes at each K by each rule, what Yosys counts of it and of its source with the
parameters in registers, and whether the Verilog and the netlist that Yosys synthesises of it play a run."""

from __future__ import annotations

import json
import os
import re
from typing import Any

from on_device.calls import FLOW, HOME, TOP, Room, must, program, room, version
from on_device.events import prepared

from tlutflow import tools
from tlutflow.abc_form import abc_text
from tlutflow.circuit import read_circuit
from tlutflow.devices.count import Counts, best_of, count_of_circuit, count_of_registers, source_of_verilog
from tlutflow.devices.families import FAMILIES
from tlutflow.devices.sites import FIXED_PAIR, Node, pairs_of
from tlutflow.mappings import MAPPED, is_table, sizes_by_tlut, sizes_of
from tlutflow.netlist import read_library
from tlutflow.parameters import read_parameters
from tlutflow.preparing.trials import RULES
from tlutflow.text import read_text, write_text
from tlutflow.verilog.recipe import Sources

DESIGNS = ("kernel", "rules", "branches", "lanes", "pulses", "rounds")
# Icarus takes minutes for each K of this one, so it is played only as it is built.
LARGE = "kernel"
FAMILY = FAMILIES["xilinx7"]
# What a count of Yosys has, in the order of `Cells.row`.
CELLS = ("luts", "sites", "carries", "flip_flops", "cfglut5", "depth")


class Design:
    """A design, the folder of its files, and what the files' names begin with."""

    def __init__(self, name: str, folder: str):
        self.name, self.room = name, room(folder, name)
        self.source, self.base = f"{HOME}/{name}.v", self.room.path(name)
        self.files = [f"{self.base}.blif", f"{self.base}.par"]
        self.by = [FAMILY.name, FAMILY.commands, version("Yosys")]

    def mapped(self, k: int, rule: str) -> list[str]:
        """The template and the pack at a K by a rule."""
        return [self.room.path(f"{k}{rule}/{name}") for name in MAPPED]

    def size(self, k: int, rule: str) -> list[int]:
        """The sites, the depth, LUTs and bits of a mapping, which stays in the folder."""
        folder = self.room.path(f"{k}{rule}")
        os.makedirs(folder, exist_ok=True)
        sizes = sizes_by_tlut(program(), k, *self.files, folder, *RULES[rule])
        if sizes.refusal:
            raise SystemExit(f"{self.name}: K {k} is refused ({sizes.refusal})")
        return [FAMILY.cost(read_circuit(*self.mapped(k, rule))), sizes.depth, sizes.tables, sizes.bits]

    def counts(self) -> Counts:
        """The same at each K by each rule."""
        made, found = self.room.steps, {}
        for k in FAMILY.ks:
            at = {rule: made.make(f"K {k} {rule}", [], self.files, self.mapped(k, rule), lambda: self.size(k, rule)) for rule in RULES}
            found[str(k)] = at
        return found

    def hdl(self, k: int, rule: str, *more: str, given: str = "") -> str:
        """What `flow hdl` prints of a mapping."""
        module = ["--module", f"{self.name}{k}", "--device", FAMILY.name]
        return must([FLOW, "hdl", *self.mapped(k, rule), *module, *more], given)

    def played(self, k: int, rule: str) -> dict[str, Any]:
        """What Icarus Verilog shows of a mapping: its Verilog and the synthesised netlist beside the run, and what Yosys counts of it."""
        made, script = self.room.steps, f"{self.base}.scr"
        run = [program(), *RULES[rule], "run", str(k), *self.files, script, "0", "0"]
        printed = made.make(f"K {k} run", [rule], [*self.files, script, *self.mapped(k, rule)], [], lambda: must(run))
        path, netlist = self.room.path(f"{self.name}{k}.v"), self.room.path(f"{self.name}{k}_device.v")
        write_text(path, self.hdl(k, rule))
        play = ["--script", script, "--simulate"]
        lines = made.make(f"K {k} Verilog", [printed], [path], [], lambda: self.hdl(k, rule, *play, given=printed))
        cells = made.make(f"K {k} synthesis", self.by, [path], [netlist], lambda: count_of_circuit(FAMILY, path, netlist))
        models = ["--netlist", netlist, "--netlist", tools.yosys_file(FAMILY.models)]
        cycles = made.make(f"K {k} netlist", [printed], [netlist], [], lambda: self.hdl(k, rule, *play, *models, given=printed))
        return {"rule": rule, "lines": number_in(lines), "cycles": number_in(cycles), **dict(zip(CELLS, cells))}

    def by_abc(self, k: int) -> list[int]:
        """The same of ABC's `if`, which maps parameters as inputs like others: the sites if two LUTs share one where they may, the depth,
        LUTs and bits."""
        abc, folder = tools.need(tools.ABC, "a comparison"), self.room.folder
        write_text(f"{folder}/source.blif", abc_text(read_library(self.files[0]), {}))
        must([abc, "-q", f"read_blif source.blif; strash; if -K {k}; write_blif abc{k}.blif"], "", folder)
        library = read_library(f"{folder}/abc{k}.blif")
        covers = [cover for cover in library.main.covers if is_table(cover)]
        nodes = [Node(frozenset(it.inputs), (it.output,), FIXED_PAIR if len(it.inputs) <= FIXED_PAIR else 0) for it in covers]
        sizes = sizes_of(library)
        return [len(covers) - len(pairs_of(nodes, False)), sizes.depth, sizes.tables, sizes.bits]

    def registers(self) -> list[Any]:
        """What Yosys counts of the source with its parameters in registers."""
        source = source_of_verilog(Sources([f"{TOP}/{self.source}"], self.name), f"{self.base}.ports.json")
        return count_of_registers(source, self.files[1], FAMILY)


def number_in(told: str) -> int:
    """How many lines or cycles a simulation had, all of them as the run's."""
    found = re.fullmatch(r"([\d,]+) \w+ of the \w+, all (?:outputs )?as the run's", told.strip())
    if not found:
        raise SystemExit(f"no simulation says: {told[:200]}")
    return int(found[1].replace(",", ""))


def measured(name: str, folder: str) -> dict[str, Any]:
    """All counts and plays of a design."""
    it = Design(name, folder)
    it.room.steps.make("script", [], [it.source], [*it.files, f"{it.base}.scr"], lambda: prepared(it.source, name, it.room))
    found = it.counts()
    best = best_of(found, list(FAMILY.ks), None)
    assert best
    chosen = {k: best_of(found, [k], None) for k in ([best[0]] if name == LARGE else FAMILY.ks)}
    plays = {str(k): it.played(*at) for k, at in chosen.items() if at}
    if any(at["luts"] > found[k][at["rule"]][0] for k, at in plays.items()):
        raise SystemExit(f"{name}: Yosys has more sites than the build: {plays}, {found}")
    words = [*it.by, list(read_parameters(it.files[1]))]
    theirs = it.room.steps.make("registers", words, [it.source], [], it.registers)
    abc = {str(k): it.room.steps.make(f"K {k} ABC", [version("ABC")], it.files[:1], [], lambda: it.by_abc(k)) for k in FAMILY.ks}
    registers = [{"command": command, **dict(zip(CELLS, cells))} for command, cells in theirs]
    return {"k": best[0], "rule": best[1], "counts": found, "plays": plays, "abc": abc, "registers": registers}
