"""What the implementations of LUTs in Verilog share: texts of vectors, and a LUT as a choice among its bits."""

from __future__ import annotations

from dataclasses import dataclass

from tlutflow.circuit import Lut
from tlutflow.verilog.names import Names

# How many digits a number has at most.
LONGEST = 4096


@dataclass(frozen=True)
class Operation:
    """What a configuration port is given: `load` with the digits of each chain, or `write` with a number and a bit."""

    word: str
    values: list[str]

    @property
    def line(self) -> str:
        """The line of a file of events."""
        return " ".join([self.word, *self.values])


def vector(size: int, always: bool = False) -> str:
    """The range of this many bits; empty for one bit unless it has to be a vector."""
    return f"[{size - 1}:0] " if size > 1 or always else ""


def binary(bits: list[int]) -> str:
    """Bits, the lowest place first, as a number. A long one is several numbers in a row, since Icarus Verilog reads no number of 16,384 digits."""
    if len(bits) > LONGEST:
        ends = range(len(bits), 0, -LONGEST)
        return f"{{{', '.join(binary(bits[max(end - LONGEST, 0) : end]) for end in ends)}}}"
    return f"{len(bits)}'b{''.join(map(str, reversed(bits)))}"


def leaf_index(names: Names, leaves: list[str]) -> str:
    """The leaves as one number, leaf 0 the lowest."""
    return f"{{{', '.join(names.nets[leaf] for leaf in reversed(leaves))}}}"


def chosen(names: Names, name: str, leaves: list[str], bits: list[str], net: str) -> list[str]:
    """The lines by which a net is the bit at the leaves; bits are expressions, and constants make a plain function."""
    if not leaves:
        return [f"    assign {net} = {bits[0]};"]
    if all(bit in ("1'b0", "1'b1") for bit in bits):
        kept = f"    localparam {vector(len(bits))}{name} = {binary([int(bit[-1]) for bit in bits])};"
    else:
        kept = f"    wire {vector(len(bits))}{name} = {{{', '.join(reversed(bits))}}};"
    return [kept, f"    assign {net} = {name}[{leaf_index(names, leaves)}];"]


def selected(names: Names, number: int, lut: Lut, bits: list[str]) -> list[str]:
    """The lines of a LUT whose bits are these expressions."""
    return chosen(names, names.instance(number), lut.leaves, bits, names.nets[lut.net])
