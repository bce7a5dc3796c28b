"""What a device counts of a build: the circuit at each K by each rule, and by Yosys the mapped circuit beside the source with its parameters in
registers."""

from __future__ import annotations

import json
import os
from typing import Any, Optional

from tlutflow import tools
from tlutflow.bus import Bus
from tlutflow.circuit import read_circuit
from tlutflow.devices.cells import Cells
from tlutflow.devices.families import Family
from tlutflow.devices.registers import mapped, with_registers
from tlutflow.mappings import MAPPED, sizes_by_tlut
from tlutflow.netlist import read_library
from tlutflow.parameters import data_inputs, read_parameters
from tlutflow.plain_names import PlainNames, temporary_folder, work_folder
from tlutflow.port_file import read_ports_file
from tlutflow.preparing.trials import RULES
from tlutflow.text import count, read_text, write_text
from tlutflow.verilog.recipe import Sources, Step, quoted, reading

# How Yosys reads a source, its module, and its ports with their directions.
Source = tuple[list[Step], str, dict[str, tuple[str, Bus]]]
# The counts at each K, a number as JSON has it, by each rule: what the device counts, the depth, LUTs and bits.
Counts = dict[str, dict[str, list[int]]]
COLUMNS = ["LUTs", "LUT sites, paired", "carries", "flip-flops", "CFGLUT5", "LUTs on the critical path"]


def counts(program: str, family: Family, netlist: str, parameters: str, ks: list[int]) -> Counts:
    """What the device counts of a netlist; mappings that exceed a limit are left out."""
    found: Counts = {}
    with temporary_folder() as room:
        for k in ks:
            found[str(k)] = {}
            for rule, words in RULES.items():
                sizes = sizes_by_tlut(program, k, netlist, parameters, room, *words)
                if not sizes.refusal:
                    cost = family.cost(read_circuit(*(f"{room}/{it}" for it in MAPPED)))
                    found[str(k)][rule] = [cost, sizes.depth, sizes.tables, sizes.bits]
    return found


def best_of(found: Counts, ks: list[int], rule: Optional[str]) -> Optional[tuple[int, str]]:
    """The K and the rule with the least count, then the least depth; None if none could be mapped."""
    able = [(cells, k, name) for k in ks for name, cells in found[str(k)].items() if rule in (None, name)]
    return min(able)[1:] if able else None


def source_of_verilog(sources: Sources, ports_file: str) -> Source:
    """How Yosys reads a design, its module, and its ports."""
    ports = read_ports_file(ports_file)
    directions = {it["name"]: it["direction"] for it in json.loads(read_text(ports_file))["ports"]}
    return reading(sources), sources.top, {name: (way, ports.buses[name]) for name, way in directions.items()}


def source_of_netlist(netlist: str, link: str) -> Source:
    """The same of a netlist in BLIF, each of whose nets is a port of its own. `link` is its name for Yosys."""
    library = read_library(netlist)
    inputs = [*data_inputs(library), *library.clock_nets()]
    ports = {net: ("input", Bus(net, (net,))) for net in inputs}
    ports.update((net, ("output", Bus(net, (net,)))) for net in library.main.outputs)
    return [Step(f"read_blif {quoted(link)}", "the netlist")], library.main.name, ports


def count_of_circuit(family: Family, path: str, made: str) -> list[int]:
    """What Yosys counts of the mapped circuit in a file, whose netlist goes to another one."""
    with work_folder() as room:
        found = mapped(PlainNames(f"{room}/names").path(path), os.path.basename(path)[: -len(".v")], family, f"{room}/mapped")
        write_text(made, read_text(f"{room}/mapped.v"))
    return found.row()


def count_of_registers(source: Source, parameters: str, family: Family) -> list[list[Any]]:
    """What Yosys counts of a source with its parameters in registers, by each command."""
    steps, top, ports = source
    with work_folder() as room:
        found = with_registers(steps, top, ports, read_parameters(parameters), family, room)
    return [[command, it.row()] for command, it in zip(family.commands, found)]


def compared_text(family: Family, ours: Cells, theirs: list[Cells]) -> str:
    """What the comparison says, in a line."""
    luts, sites = min(it.luts for it in theirs), min(it.sites for it in theirs)
    least = next(it for it in theirs if it.luts == luts)
    carries = f"{least.carries} carr{'y' if least.carries == 1 else 'ies'} and {count(least.flip_flops, 'flip-flop')}"
    source = f"with its parameters in registers the source has {count(luts, 'LUT')}"
    if family.target == "xilinx":
        paired = f"{count(sites, 'site')} if two LUTs share one where they may"
        return f"{count(ours.sites, 'LUT site')} and {count(ours.flip_flops, 'flip-flop')}; {source}, {paired}, {carries}"
    worse = "" if ours.luts < luts else ": registers are cheaper on this device, whose LUTs can't be rewritten"
    return f"{count(ours.luts, 'LUT')} and {count(ours.flip_flops, 'flip-flop')}; {source}, {carries}{worse}"


def is_measurable(netlist: str) -> bool:
    """Whether Yosys is there and reads the source's form."""
    return tools.find(tools.YOSYS) is not None and not read_text(netlist).startswith("aag ")
