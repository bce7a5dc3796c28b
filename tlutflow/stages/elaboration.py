"""A netlist and its parameters from a design in Verilog, by Yosys and the preparation that measures best."""

from __future__ import annotations

import json
import os
import re
import sys
from concurrent.futures import ThreadPoolExecutor
from dataclasses import dataclass, replace
from typing import Optional

from tlutflow import tools
from tlutflow.arithmetic.netlists import sum_netlist, word_source
from tlutflow.arithmetic.variants import STYLES
from tlutflow.buses import buses_of
from tlutflow.faults import Fault
from tlutflow.netlist import Library, read_library
from tlutflow.options import DesignOptions, PrepareOptions
from tlutflow.parameters import data_inputs, parameter_list
from tlutflow.patience import patience
from tlutflow.plain_names import PlainNames
from tlutflow.port_file import Ports, json_of_bus
from tlutflow.preparations import Preparation
from tlutflow.preparing.combinational import model_text
from tlutflow.preparing.graphs import Bench
from tlutflow.preparing.part_trials import prepare_by_parts
from tlutflow.preparing.parts import PART_SIZE
from tlutflow.preparing.starts import SumStart
from tlutflow.preparing.trials import Found, keep, prepare
from tlutflow.stages.preparing import progress, task_of
from tlutflow.text import count, write_text
from tlutflow.verilog.design import gates_about, obstacle, parameters_of, ports_of
from tlutflow.verilog.design_checks import late_resets, refuse_high_impedance, refuse_ports, refuse_registers, register_buses, register_names, undriven
from tlutflow.verilog.design_json import Design, read_design
from tlutflow.verilog.loops import refuse_loop
from tlutflow.verilog.recipe import PREPARATION, Sources, Step, look, recipe
from tlutflow.yosys import run_yosys

# The cell that a product is in Yosys, and the style of tables that is taken without measuring.
PRODUCT, QUICK_STYLE = "$mul", "tables"
WORD = re.compile(r"[^\s;\"#]+")


def sources_of(design: DesignOptions) -> Sources:
    """What Yosys reads."""
    top = design.top[1:] if design.top.startswith("\\") else design.top
    words = {"--top": (top,), "-D": design.defines, "--set": design.settings}
    for option, values in words.items():
        for value in values:
            if not WORD.fullmatch(value):
                raise Fault(f"{option} {value}: it can't be empty, and can't have blanks or one of ; \" #")
    settings = []
    for word in design.settings:
        name, equals, value = word.partition("=")
        if not (name and equals and value):
            raise Fault(f"--set {word}: it isn't NAME=VALUE")
        settings.append((name, value))
    return Sources(list(design.files), top, list(design.defines), list(design.includes), settings, design.reader, list(design.cells), design.by_modules)


def preparation_of(how: PrepareOptions) -> str:
    """The commands of ABC as one argument of Yosys, with commas for blanks."""
    commands = [",".join(part.split()) for part in (how.abc or PREPARATION).split(";")]
    return ";".join(filter(None, commands))


def yosys(steps: list[Step], folder: str, prog: str, names: PlainNames) -> None:
    """Runs Yosys, and says so if it takes long."""
    with patience(prog, "Yosys"), names.told():
        run_yosys(steps, folder, "making a netlist from Verilog")


@dataclass(frozen=True)
class Synthesised:
    """What Yosys made: the netlist, the design, its ports, lines on what the netlist has otherwise than the design, whether it is large, so that the
    netlist isn't prepared yet, and the kinds of cells that its source has."""

    library: Library
    design: Design
    ports: Ports
    told: list[str]
    is_large: bool
    kinds: frozenset[str]


def synthesise(design: DesignOptions, how: PrepareOptions, folder: str) -> Synthesised:
    """Runs Yosys, which leaves its files in a folder. What the netlist has otherwise than the design is also printed."""
    names = PlainNames(f"{folder}/names")
    sources, paths = names.sources(sources_of(design)), [f"{folder}/{name}" for name in ("design.json", "netlist.blif", "registers.json", "ports.json")]
    yosys(look(sources, paths[0]), folder, how.prog, names)
    source = read_design(paths[0], sources.top, names.shown)
    refuse_ports(source, sources.top)
    refuse_high_impedance(source)
    told = undriven(source)
    tell(how.prog, told)
    is_large = gates_about(source) > PART_SIZE
    has_products = how.abc is None and PRODUCT in {cell.kind for cell in source.cells}
    gates = f"{folder}/gates.blif" if is_large or has_products or not how.is_quick else None
    sources = replace(sources, by_modules=sources.by_modules or is_large)
    yosys(recipe(sources, "" if is_large else preparation_of(how), paths[1], paths[2], paths[3], gates), folder, how.prog, names)
    before, after = (read_design(it, sources.top, names.shown) for it in paths[2:])
    library = read_library(paths[1])
    refuse_registers(before)
    reason = obstacle(library)
    if reason:
        raise Fault(f"{design.top}: {reason}")
    refuse_loop(library.main, after)
    told += late_resets(before)
    tell(how.prog, late_resets(before))
    registers = register_names(before, after, [latch.state for latch in library.main.latches])
    buses = [*(net.bus for name, net in after.nets.items() if name in after.ports), *register_buses(before, registers)]
    return Synthesised(library, after, Ports({bus.name: bus for bus in buses}, registers), told, is_large, frozenset(cell.kind for cell in source.cells))


def choose(design: DesignOptions, how: PrepareOptions, folder: str, made: Synthesised, parameters: dict[str, int], beside: bool = False) -> Found:
    """Replaces the recipe's netlist with the preparation that measures best. Preparations start from the gates of the recipe, or from netlists
    whose sums with parameters are tables; and the netlist of the recipe's own preparation is a further one, but of a large design there is none."""
    task = task_of(how, f"{folder}/gates.blif", f"{folder}/list.par")
    ready = {} if made.is_large else {"yosys": f"{folder}/netlist.blif"}
    styles = dict.fromkeys(it.sums for it in task.preparations if it.sums)
    sums = with_tables(design, how, folder, made, parameters, list(styles), list(task.ks) or [task.k])
    if how.only and not sums and all(it.sums for it in task.preparations):
        raise Fault(f"--only {how.only[0]}: no sum of {design.top} has a parameter")
    task = replace(task, ready=ready, beside=beside, title=f"the gates of {design.top}", sums=sums)
    found = prepare(task, f"{folder}/trials", progress(how.prog))
    keep(found.best, f"{folder}/netlist.blif")
    return found


def with_tables(design: DesignOptions, how: PrepareOptions, folder: str, made: Synthesised, parameters: dict[str, int], styles: list[str], ks: list[int]) -> tuple[SumStart, ...]:
    """The netlists of a design whose sums with parameters are tables, in these styles and for LUTs of these sizes; none if it has no such sums. One
    that can't be made, or isn't shown to be the design, is left out, and stderr says why."""
    if not styles or not parameters:
        return ()
    names = PlainNames(f"{folder}/names")
    ports = [port.bus.name for port in ports_of(made.design) if set(port.bus.nets) <= set(parameters)]
    source = word_source(names.sources(sources_of(design)), ports, folder, lambda steps: yosys(steps, folder, how.prog, names))

    def start(job: tuple[str, int]) -> Optional[SumStart]:
        style, k = job
        room = f"{folder}/{style}{k}"
        os.makedirs(room)
        try:
            found = sum_netlist(source, STYLES[style].style(k), room, lambda steps: yosys(steps, room, how.prog, names))
        except Fault as fault:
            tell(how.prog, [f"{style} at K {k} is left out: {fault}"])
            return None
        return SumStart(style, k, found.model, found.told, found.shown) if found else None

    with ThreadPoolExecutor(how.jobs or os.cpu_count() or 1) as pool:
        found = [it for it in pool.map(start, [(style, k) for k in ks for style in styles]) if it is not None]
    # Two styles can make the same netlist, as where there are no sums of data alone.
    return tuple({(it.k, model_text(it.model, it.model.covers)): it for it in reversed(found)}.values())[::-1]


def prepare_quickly(how: PrepareOptions, parameters: list[str], folder: str) -> list[str]:
    """Replaces a large netlist with its one preparation, part by part. Returns a line about the parts that stay as they are, if some do."""
    preparation = Preparation("quick", (f"{preparation_of(how).replace(',', ' ')}; strash",))
    bench = Bench(tools.need(tools.ABC, "preparing a large design"), f"{folder}/graphs", how.seconds)
    with patience(how.prog, "the preparation by parts"):
        left_out = prepare_by_parts(f"{folder}/netlist.blif", parameters, preparation, bench, how.jobs, PART_SIZE)
    return [f"the preparation leaves {left_out}"] if left_out else []


@dataclass(frozen=True)
class Made:
    """A netlist that was made: its parameters, its ports, the text of these, its summary, what was found for its preparation, lines on what
    it has otherwise than the design, whether it was prepared and compared part by part, and without measuring its netlist with tables."""

    parameters: dict[str, int]
    ports: Ports
    ports_text: str
    summary: str
    found: Optional[Found]
    told: list[str]
    is_by_parts: bool = False
    tables: Optional[SumStart] = None

    @property
    def quick_sums(self) -> dict[str, str]:
        """What is told of sums that became tables without measuring."""
        return {"sums": self.tables.told, "compared": self.tables.shown} if self.tables else {}


def make(design: DesignOptions, how: PrepareOptions, folder: str, beside: bool = False) -> Made:
    """Creates the netlist in a folder, as netlist.blif."""
    made = synthesise(design, how, folder)
    ports, told, found, tables = made.ports, made.told, None, None
    parameters = parameters_of(ports_of(made.design), list(design.parameters), made.library.clock_nets())
    if not how.is_quick:
        write_text(f"{folder}/list.par", parameter_list(parameters))
        found = choose(design, how, folder, made, parameters, beside)
        if found.best.name != "yosys":
            ports = replace(ports, registers=names_of_gates(folder, sources_of(design).top))
    else:
        tables = quick_tables(design, how, folder, made, parameters)
    if tables is not None:
        ports = replace(ports, registers=names_of_gates(folder, sources_of(design).top))
    elif found is None and made.is_large:
        lines = prepare_quickly(how, list(parameters), folder)
        tell(how.prog, lines)
        told = [*told, *lines]
    text = ports_text(made.design, ports, sources_of(design).top)
    return Made(parameters, ports, text, summary(made.library, parameters, ports), found, told, made.is_large and not found and not tables, tables)


def quick_tables(design: DesignOptions, how: PrepareOptions, folder: str, made: Synthesised, parameters: dict[str, int]) -> Optional[SumStart]:
    """Replaces the netlist of a design that has products by one whose sums with parameters are tables, without measuring; None if there are none."""
    if not os.path.exists(f"{folder}/gates.blif") or PRODUCT not in made.kinds:
        return None
    found = with_tables(design, how, folder, made, parameters, [QUICK_STYLE], [how.k])
    if not found:
        return None
    write_text(f"{folder}/netlist.blif", model_text(found[0].model, found[0].model.covers))
    return found[0]


def names_of_gates(folder: str, top: str) -> list[str]:
    """The names of the registers of a netlist that was prepared from the gates, in the order of its latches."""
    before, gates = (read_design(f"{folder}/{name}", top) for name in ("registers.json", "gates.blif.json"))
    return register_names(before, gates, [latch.state for latch in read_library(f"{folder}/netlist.blif").main.latches])


def tell(prog: str, lines: list[str]) -> None:
    """Lines on standard error."""
    for line in lines:
        print(f"{prog}: {line}", file=sys.stderr)


def bus_titles(names: list[str], ports: Ports) -> str:
    """The buses of some nets."""
    return ", ".join(bus.title for bus in buses_of(names, ports).values()) or "none"


def summary(library: Library, parameters: dict[str, int], ports: Ports) -> str:
    """The line that says what the netlist has."""
    regular = [name for name in data_inputs(library) if name not in parameters]
    titles = {"inputs": bus_titles(regular, ports), "outputs": bus_titles(library.main.outputs, ports)}
    clock = library.clock_nets()
    registers = count(len(library.main.latches), "register bit")
    unset = sum(latch.init in "23" for latch in library.main.latches)
    late = f", {unset} of them without an initial value, which start at 0" if unset else ""
    parts = [f"clock {clock[0]}" if clock else "no clock", *(f"{what} {text}" for what, text in titles.items()), registers + late]
    return "; ".join(parts)


def ports_text(design: Design, ports: Ports, top: str) -> str:
    """The text of TOP.ports.json."""
    shown = [json_of_bus(ports.buses[name], direction=port["direction"]) for name, port in design.ports.items()]
    others = [json_of_bus(bus) for name, bus in ports.buses.items() if name not in design.ports]
    return json.dumps({"top": top, "ports": shown, "buses": others, "registers": ports.registers}, indent=1) + "\n"
