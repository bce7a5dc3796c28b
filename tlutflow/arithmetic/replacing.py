"""A design whose sums are modules of tables: the JSON in which they take the cells' places, their text, and their certificates."""

from __future__ import annotations

import re
from dataclasses import dataclass
from typing import Any, Iterable, Optional, Union

from tlutflow.arithmetic.checker import check, check_carries, mux_drivers
from tlutflow.arithmetic.comparing import CarryModule, carry_module, is_comparison
from tlutflow.arithmetic.linear import CONSTANT, LinearForm, linear_form
from tlutflow.arithmetic.modules import Style, SumModule, sum_module
from tlutflow.arithmetic.sums import MACC, sum_of
from tlutflow.arithmetic.words import Bit, WordCell, WordDesign, word_design

# The cells of flip-flops.
FLIP_FLOP = re.compile(r"\$(a|ad|s|al)?dff(e|sr|sre|ce)?")
# What the names of the modules begin with.
PREFIX = "tlut_sum_"


Module = Union[SumModule, CarryModule]


@dataclass(frozen=True)
class Replaced:
    """A design with modules for some cells: its JSON, the modules of sums, and those of comparisons and plain additions."""

    json: dict[str, Any]
    sums: tuple[SumModule, ...]
    carries: tuple[CarryModule, ...]

    @property
    def modules(self) -> list[Module]:
        """All modules."""
        return [*self.sums, *self.carries]

    @property
    def text(self) -> str:
        """All modules as models in BLIF."""
        return "".join(it.text for it in self.modules)

    @property
    def stubs(self) -> str:
        """All modules in Verilog, with their ports alone."""
        found = []
        for it in self.modules:
            ports = [f"{'output' if port in it.outputs else 'input'} [{len(bits) - 1}:0] {port}" for port, bits in it.ports.items() if bits]
            found.append(f"(* blackbox *) module {it.name} ({', '.join(ports)});\nendmodule\n")
        return "".join(found)

    @property
    def tables(self) -> list[tuple[int, int]]:
        """The tables, each with how many data bits select and how many bits are selected."""
        return [it for made in self.sums for it in made.tables]


def read_bits(design: WordDesign, module: dict[str, Any]) -> frozenset[Bit]:
    """The bits that cells or outputs read."""
    found = {bit for cell in design.cells for bit in cell.inputs()}
    for port in module["ports"].values():
        if port["direction"] != "input":
            found.update(port["bits"])
    return frozenset(found)


def has_parameters(form: LinearForm) -> bool:
    """Whether parameters are in a form."""
    return any(nets != CONSTANT for _, coefficient in form.terms() for nets in coefficient)


def replace_sums(design: dict[str, Any], top: str, parameters: Iterable[str], style: Style) -> Replaced:
    """Replaces the sums of a design's top module in which parameters are factors or addends, and checks the certificate of each."""
    module = design["modules"][top]
    words = word_design(module, parameters)
    read = read_bits(words, module)
    sums, carries, cells = [], [], dict(module["cells"])
    for number, cell in enumerate(words.cells):
        made = replacement(cell, words, read, style, f"{PREFIX}{number}")
        if made is None:
            continue
        cells[cell.name] = instance(made)
        if isinstance(made, SumModule):
            sums.append(made)
        else:
            carries.append(made)
    replaced = {**design, "modules": {**design["modules"], top: {**module, "cells": {name: kept(it) for name, it in cells.items()}}}}
    found = Replaced(replaced, tuple(sums), tuple(carries))
    check_all(found, module["cells"], cells)
    return found


def kept(cell: dict[str, Any]) -> dict[str, Any]:
    """A cell; a flip-flop is kept, also where another one or a constant is found to have its value: the source has it."""
    return {**cell, "attributes": {**cell.get("attributes", {}), "keep": "1".zfill(32)}} if FLIP_FLOP.fullmatch(cell["type"]) else cell


def replacement(cell: WordCell, design: WordDesign, read: frozenset[Bit], style: Style, name: str) -> Optional[Module]:
    """The module that takes a cell's place, or None."""
    found = sum_of(cell, read)
    if found is not None:
        form = linear_form(found, design)
        if has_parameters(form) or style.has_data and cell.kind == MACC:
            return sum_module(form, style, cell, name)
    return carry_module(cell, name) if is_comparison(cell, design, style.has_data) else None


def instance(made: Module) -> dict[str, Any]:
    """The cell that places a module."""
    ports = {port: list(bits) for port, bits in made.ports.items() if bits}
    directions = {port: "output" if port in made.outputs else "input" for port in ports}
    return {"hide_name": 1, "type": made.name, "parameters": {}, "attributes": {}, "port_directions": directions, "connections": ports}


def check_all(found: Replaced, before: dict[str, Any], after: dict[str, Any]) -> None:
    """Refuses modules that aren't shown to be their cells."""
    drivers = mux_drivers(before)
    for it in found.sums:
        check(it.certificate, it.text, after[it.certificate.cell], before[it.certificate.cell], drivers)
    for made in found.carries:
        check_carries(made.text, after[made.cell], before[made.cell])
