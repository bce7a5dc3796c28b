"""Netlists of a design whose sums with parameters are tables, one for each style and K."""

from __future__ import annotations

import json
import os
from dataclasses import dataclass
from typing import Callable, Iterable, Optional

from tlutflow.arithmetic.flip_flops import with_flip_flops
from tlutflow.arithmetic.modules import Style
from tlutflow.arithmetic.replacing import Replaced, replace_sums
from tlutflow.arithmetic.sampling import compare_samples
from tlutflow.netlist import Model, read_library
from tlutflow.preparing.combinational import interface_difference
from tlutflow.preparing.flat import flat_model, read_flat
from tlutflow.faults import Fault
from tlutflow.text import read_text, write_text
from tlutflow.verilog.design_json import Design, read_design
from tlutflow.verilog.recipe import NUMBERS, Sources, Step, gates_of_words, words

# Runs steps in Yosys.
Run = Callable[[list[Step]], None]


@dataclass(frozen=True)
class SumNetlist:
    """A netlist of a design: its flat model, what its sums became in words, and how it was shown to be the design."""

    model: Model
    told: str
    shown: str


@dataclass(frozen=True)
class WordSource:
    """A design at word level: its file as JSON, its top module, its parameters' ports, and the netlist of its gates with the design's names after
    synthesis."""

    file: str
    top: str
    parameters: tuple[str, ...]
    gates: Model
    registers: Design


def word_source(sources: Sources, parameters: Iterable[str], folder: str, run: Run) -> WordSource:
    """A design at word level. The folder has the netlist of its gates, gates.blif, and its registers, registers.json."""
    file = f"{folder}/words.json"
    run(words(sources, file))
    registers = read_design(f"{folder}/registers.json", sources.top)
    return WordSource(file, sources.top, tuple(parameters), read_flat(f"{folder}/gates.blif"), registers)


def sum_netlist(source: WordSource, style: Style, folder: str, run: Run) -> Optional[SumNetlist]:
    """The netlist of a design in a style, or None if it has no sums with parameters. Its sums are shown by their certificates, and the whole by
    drawn values."""
    replaced = replace_sums(json.loads(read_text(source.file)), source.top, source.parameters, style)
    if not replaced.sums:
        return None
    os.makedirs(folder, exist_ok=True)
    files = {name: f"{folder}/{name}" for name in ("numbers.il", "replaced.json", "stubs.v", "registers.json", "gates.blif")}
    write_text(files["numbers.il"], NUMBERS)
    write_text(files["replaced.json"], json.dumps(replaced.json))
    write_text(files["stubs.v"], replaced.stubs)
    run(gates_of_words(source.top, *files.values()))
    write_text(files["gates.blif"], read_text(files["gates.blif"]) + replaced.text)
    made = flat_model(read_library(files["gates.blif"]))
    found = with_flip_flops(made, source.gates, read_design(files["registers.json"], source.top), source.registers)
    difference = interface_difference(source.gates, found)
    if difference:
        raise Fault(difference)
    compare_samples(source.gates, found)
    return SumNetlist(found, told(replaced), shown(replaced))


def told(replaced: Replaced) -> str:
    """What the sums became."""
    tables = replaced.tables
    widths = sorted({width for _, width in tables})
    sizes = f", of {widths[0]} to {widths[-1]} bits" if len(widths) > 1 else f", of {widths[0]} bits" if widths else ""
    carries = f"; additions and comparisons with a parameter: {len(replaced.carries)}" if replaced.carries else ""
    return f"sums: {len(replaced.sums)}; tables: {len(tables)}{sizes}{carries}"


def shown(replaced: Replaced) -> str:
    """How a netlist was shown to be its design."""
    return f"certificates of its sums ({len(replaced.sums)}) and comparisons ({len(replaced.carries)}), drawn values for the whole"
