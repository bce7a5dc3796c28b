"""A mapped circuit in Verilog with its testbench, and what a simulation of it shows."""

from __future__ import annotations

import os
import time
from dataclasses import dataclass
from typing import Optional

from tlutflow import tools
from tlutflow.build_files import refuse_links
from tlutflow.circuit import Circuit
from tlutflow.faults import Fault, Undecided
from tlutflow.plain_names import PlainNames, work_folder
from tlutflow.runs.output import Output, parse_output
from tlutflow.runs.script import Event, read_script
from tlutflow.runs.waveform import check_end
from tlutflow.text import count, physical_lines, write_text
from tlutflow.verilog.bench import bench_text, events_text
from tlutflow.verilog.hdl import Device, Way, device_of, module_text
from tlutflow.verilog.names import Names, module_name, names_of


@dataclass(frozen=True)
class Module:
    """A mapped circuit with its names in Verilog, and how its configuration is kept and changed."""

    circuit: Circuit
    names: Names
    device: Device

    @property
    def text(self) -> str:
        """The module in Verilog."""
        return module_text(self.circuit, self.names, self.device)

    def base(self, folder: str) -> str:
        """What the names of its files in a folder begin with."""
        return f"{folder}/{self.names.module}"


@dataclass(frozen=True)
class Recording:
    """The events of a script, and what a run of it printed."""

    events: list[Event]
    output: Output


def module_of(circuit: Circuit, way: Way, name: Optional[str] = None) -> Module:
    """A circuit in Verilog, under a name or that of the circuit and `_mapped`."""
    names = names_of(circuit, module_name(name, circuit.name))
    return Module(circuit, names, device_of(circuit, names, way))


def read_recording(script: str, inputs: list[str], text: str, title: str) -> Recording:
    """A script and the output of its run, which has this title in a fault."""
    output = parse_output(text, title)
    events = read_script(script, inputs)
    check_end(len(events), output)
    return Recording(events, output)


def write_module(module: Module, folder: str, recording: Optional[Recording]) -> None:
    """Writes the module, its testbench, and the events of a run if there is one."""
    base = module.base(folder)
    events = events_text(module.device, recording.events, recording.output) if recording else None
    refuse_links([f"{base}.v", f"{base}_bench.v", f"{base}.events"])
    write_text(f"{base}.v", module.text)
    write_text(f"{base}_bench.v", bench_text(module.circuit, module.names, module.device) + module.device.model)
    if events is not None:
        write_text(f"{base}.events", events)


class Deadline:
    """A limit in seconds for several programs together."""

    def __init__(self, seconds: Optional[float]):
        self.seconds, self.begun = seconds, time.monotonic()

    def run(self, words: list[str], variables: dict[str, str]) -> tuple[int, str, str]:
        """Runs a program in the time that is left. Returns its status and outputs."""
        left = None if self.seconds is None else self.seconds - (time.monotonic() - self.begun)
        try:
            if left is not None and left <= 0:
                raise Undecided("no time is left")
            ran = tools.run(words, None, left, variables=variables)
        except Undecided as why:
            raise Undecided(f"the simulation was stopped after {self.seconds:g} seconds") from why
        return ran.returncode, ran.stdout, ran.stderr


def simulate(base: str, netlists: list[str], seconds: Optional[float] = None) -> list[str]:
    """The lines that the testbench prints, of the module or of netlists instead. Undecided if it takes longer than some seconds."""
    compiler, player = tools.need(tools.ICARUS, "a simulation"), tools.need(tools.ICARUS_PLAYER, "a simulation")
    limit = Deadline(seconds)
    with work_folder() as folder:
        names, variables = PlainNames(f"{folder}/names"), {**os.environ, "TMPDIR": folder}
        read = [names.path(it) for it in netlists or [f"{base}.v"]]
        # Without the macro Yosys's cells of the iCE40 have values for ports that Icarus can't read. Those of the ECP5 include files beside them.
        beside = [f"-I{os.path.dirname(path) or '.'}" for path in read]
        files = ["-DNO_ICE40_DEFAULT_ASSIGNMENTS", *beside, *read] if netlists else ["-DINSIDE", *read]
        made = f"{folder}/bench.vvp"
        status, _, said = limit.run([compiler, "-g2012" if netlists else "-g2005", "-o", made, *files, names.path(f"{base}_bench.v")], variables)
        if status:
            told = names.shown(said).strip().splitlines()
            raise Fault(f"Icarus Verilog: {next((line for line in told if 'error' in line), (told or ['it failed'])[0])}")
        status, shown, said = limit.run([player, made, f"+events={names.path(f'{base}.events')}"], variables)
    if status:
        raise Fault(f"Icarus Verilog: {(said.strip().splitlines() or ['it failed'])[0]}")
    return [line for line in physical_lines(shown) if line]


def compare(shown: list[str], output: Output) -> str:
    """What a comparison of the simulation with the run reports if they agree."""
    wanted = ([output.header.text] if output.header else shown[:1]) + [event.text for event in output.events]
    for number, pair in enumerate(zip(shown, wanted), 1):
        if pair[0] != pair[1]:
            raise Fault(f"line {number} of the simulation is `{pair[0][:60]}`, and that of the run `{pair[1][:60]}`")
    if len(shown) != len(wanted):
        raise Fault(f"the simulation has {count(len(shown), 'line')}, and the run {len(wanted)}")
    return f"{count(len(shown), 'line')} of the simulation, all as the run's"


def compare_outputs(shown: list[str], output: Output) -> str:
    """The same of a netlist, of which the outputs of cycles are seen."""
    found = [line.split(" ")[1] for line in shown if line.startswith("cycle ")]
    wanted = [event.text.split(" ")[1] for event in output.events if event.word == "cycle"]
    for number, pair in enumerate(zip(found, wanted), 1):
        if pair[0] != pair[1]:
            raise Fault(f"cycle {number} of the netlist has the outputs {pair[0][:60]}, and that of the run {pair[1][:60]}")
    if len(found) != len(wanted):
        raise Fault(f"the simulation has {count(len(found), 'cycle')}, and the run {len(wanted)}")
    return f"{count(len(found), 'cycle')} of the netlist, all outputs as the run's"


def simulated(module: Module, folder: str, recording: Recording, netlists: list[str], seconds: Optional[float] = None) -> str:
    """Simulates a module that was written to a folder, or netlists instead, and says that it does what the run did."""
    shown = simulate(module.base(folder), netlists, seconds)
    return compare_outputs(shown, recording.output) if netlists else compare(shown, recording.output)
