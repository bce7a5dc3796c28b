"""The steps of a build for a family of devices: the choice of K and the rule, what the device counts, and the play of the synthesised netlist."""

from __future__ import annotations

import os
from typing import Any, Optional

from tlutflow import tools
from tlutflow.circuit import read_circuit
from tlutflow.devices.cells import Cells
from tlutflow.devices.count import best_of, compared_text, count_of_circuit, count_of_registers, counts, is_measurable, source_of_netlist, source_of_verilog
from tlutflow.devices.families import Family, costs_text, told
from tlutflow.faults import Undecided
from tlutflow.options import BuildOptions
from tlutflow.parameters import read_parameters
from tlutflow.plain_names import PlainNames, temporary_folder, work_folder
from tlutflow.preparing.trials import RULE_NAMES
from tlutflow.stages.elaboration import sources_of
from tlutflow.stages.hardware import module_of, read_recording, simulated, write_module
from tlutflow.steps import Steps
from tlutflow.verilog.hdl import Way
from tlutflow.verilog.names import UnwritableName

# What stands for the comparison if the source can't be counted.
NO_SOURCE = "the source has names that Verilog can't hold, so Yosys counts nothing of it"


class DeviceSteps:
    """The steps of a build, its arguments, what the names of its files begin with, and the same of the mapped circuit in Verilog."""

    def __init__(self, options: BuildOptions, steps: Steps, family: Family, program: str, binary: str, base: str, module: str):
        self.options, self.steps, self.program, self.binary, self.base, self.module = options, steps, program, binary, base, module
        self.family = family
        self.found: dict[str, Any] = {"name": self.family.name, "unit": self.family.unit}

    def choose(self, best: Optional[dict[str, Any]]) -> tuple[int, str]:
        """K and the rule: those of the best preparation, or those that count least for the one that was used. The rule is empty if the aim
        isn't what the device counts."""
        how, family = self.options.preparing, self.family
        k, rule = (best["k"], best["rule"]) if best else (how.k, "")
        ks, files = sorted({*family.ks, k}), [f"{self.base}.blif", f"{self.base}.par"]
        found = self.steps.make("device", [family.name, ks], [*files, self.binary], [], lambda: counts(self.program, family, files[0], files[1], ks))
        least = best_of(found, list(how.ks) or [k], how.rule)
        if not best and least and how.aim == "sites":
            k, rule = least
        self.found["counts"] = found
        self.found["costs"] = costs_text(family, {int(k): min(cells[0] for cells in at.values()) for k, at in found.items() if at})
        return k, rule

    def count(self, source: str, k: int, rule: str, way: Way) -> dict[str, Any]:
        """What was chosen, and what Yosys counts of the circuit and of its source with its parameters in registers. `source` is the netlist,
        or the file of the ports of a design in Verilog."""
        design, family, found = self.options.design, self.family, self.found
        what = f"K {k}, {RULE_NAMES[rule]}, {' '.join(way.words)} ({found['costs']})"
        found["told"] = told(family, what)
        if not is_measurable(source):
            return found
        path, made, parameters = f"{self.module}.v", f"{self.base}_device.v", f"{self.base}.par"
        by = [family.name, family.commands, tools.versions(self.program).get("Yosys", "")]
        ours = self.steps.make("count", by, [path], [made], lambda: count_of_circuit(family, path, made))
        # The values at the start change no count.
        words = [*by, list(read_parameters(parameters)), design.settings, design.defines, design.includes]
        theirs = self.steps.make("registers", words, list(design.files), [], lambda: self.registers(source))
        found["rows"] = [["mapped", ours], *theirs]
        found["text"] = compared_text(family, Cells(*ours), [Cells(*row) for _, row in theirs]) if theirs else NO_SOURCE
        return found

    def registers(self, source: str) -> list[list[Any]]:
        """What Yosys counts of the source with its parameters in registers; nothing if it has names that no Verilog can hold."""
        with work_folder() as room:
            names = PlainNames(f"{room}/names")
            with names.told():
                read = source_of_verilog(names.sources(sources_of(self.options.design)), source) if self.options.design.is_verilog else source_of_netlist(source, names.path(source))
                try:
                    return count_of_registers(read, f"{self.base}.par", self.family)
                except UnwritableName:
                    return []

    def played(self, script: str, output: str, way: Way) -> list[list[str]]:
        """Whether the synthesised netlist plays the run of a script, as tlut reads it."""
        made = f"{self.base}_device.v"
        if not (os.path.exists(made) and self.family.models and tools.find(tools.ICARUS) and "rows" in self.found):
            return []
        seconds, what = self.options.preparing.seconds, "the netlist that Yosys synthesised for the device plays the script as the run did"
        netlists = [made, tools.yosys_file(self.family.models)]
        words = ["hdl", f"{self.base}_t.blif", f"{self.base}.ppc", *way.words, "--module", os.path.basename(self.module)]
        words += ["--script", script, "--simulate", *(word for it in netlists for word in ("--netlist", it))]

        def work() -> list[str]:
            module = module_of(read_circuit(f"{self.base}_t.blif", f"{self.base}.ppc"), way, os.path.basename(self.module))
            recording = read_recording(script, module.circuit.inputs, output, "the run's output")
            with temporary_folder() as folder:
                write_module(module, folder, recording)
                try:
                    return [what, "Icarus Verilog", simulated(module, folder, recording, netlists, seconds), "ok"]
                except Undecided as stopped:
                    return [what, "Icarus Verilog", str(stopped), "open"]

        return [self.steps.make("netlist of the device", [words, output, seconds], [made, script], [], work)]
