"""Additions, subtractions and comparisons with a parameter, as carries from place to place.

A LUT reads the carry and K - 1 data bits, and the parameter's bits cost no input, so a comparison of n bits takes n / (K - 1) LUTs for its carries.
Yosys's own prefix adder hides that from a mapper.
"""

from __future__ import annotations

from dataclasses import dataclass

from tlutflow.arithmetic.gates import Sheet, port_nets
from tlutflow.arithmetic.sums import ALU, extended
from tlutflow.arithmetic.words import Bit, WordCell, WordDesign

INPUTS, OUTPUTS = ("A", "B", "BI", "CI"), ("X", "Y", "CO")


@dataclass(frozen=True)
class CarryModule:
    """A module with the ports of an `$alu`: its name, its text, the bits of its ports, and the cell whose place it takes."""

    name: str
    text: str
    ports: dict[str, tuple[Bit, ...]]
    cell: str
    outputs: tuple[str, ...] = OUTPUTS


def has_parameter(cell: WordCell, design: WordDesign) -> bool:
    """Whether one word of an `$alu` depends on parameters alone, and isn't a constant."""
    words = [cell.ports[port] for port in "AB"]
    return any(all(map(design.is_fixed, word)) and not all(isinstance(bit, str) for bit in word) for word in words)


def is_comparison(cell: WordCell, design: WordDesign, is_any: bool) -> bool:
    """Whether a cell is an `$alu` that is built from place to place: one with a parameter, or any one."""
    return cell.kind == ALU and (is_any or has_parameter(cell, design))


def carry_module(cell: WordCell, name: str) -> CarryModule:
    """The module of an `$alu`."""
    width, sheet = len(cell.ports["Y"]), Sheet()
    ports = {port: extended(cell.ports[port], width, bool(cell.settings[f"{port}_SIGNED"])) for port in "AB"}
    ports |= {port: cell.ports[port][:1] for port in ("BI", "CI")}
    nets = {port: port_nets({port: len(bits)}) for port, bits in ports.items()}
    carry, halves, sums, carries = "CI", [], [], []
    for left, second in zip(nets["A"], nets["B"]):
        right = sheet.differ(second, "BI")
        half = sheet.differ(left, right)
        halves.append(half)
        sums.append(sheet.differ(half, carry))
        carry = sheet.either(sheet.both(left, right), sheet.both(half, carry))
        carries.append(carry)
    outputs = dict(zip(port_nets(dict.fromkeys(OUTPUTS, width)), [*halves, *sums, *carries]))
    text = sheet.model(name, [net for names in nets.values() for net in names], outputs)
    return CarryModule(name, text, {**ports, **{port: cell.ports[port] for port in OUTPUTS}}, cell.name)
