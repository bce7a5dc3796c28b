"""Sums of products in a design: the cells that Yosys's `alumacc` leaves, each as terms of two words.

After `alumacc` each product, and each sum of products or of several words, is a `$macc`; an addition, a subtraction or a comparison of two
words is an `$alu`.
"""

from __future__ import annotations

from dataclasses import dataclass
from typing import Iterator, Optional

from tlutflow.arithmetic.words import Bit, WordCell

MACC, ALU = "$macc", "$alu"


@dataclass(frozen=True)
class Word:
    """A word: its bits, and whether the highest one counts negative."""

    bits: tuple[Bit, ...]
    is_signed: bool = False

    def weighted(self) -> Iterator[tuple[int, Bit]]:
        """Each bit with what it counts."""
        last = len(self.bits) - 1
        for place, bit in enumerate(self.bits):
            yield (-(1 << place) if self.is_signed and place == last else 1 << place), bit


ONE = Word(("1",))


@dataclass(frozen=True)
class Product:
    """`sign * left * right`; a plain addend has 1 as its right word."""

    left: Word
    right: Word
    sign: int = 1


@dataclass(frozen=True)
class Sum:
    """A cell that adds products, modulo 2^width; its output is Y."""

    cell: WordCell
    products: tuple[Product, ...]
    width: int


def macc_products(cell: WordCell) -> Iterator[Product]:
    """The products of a `$macc`. The low four digits of CONFIG are how many digits a size has. Then come, for each product, whether it is signed,
    whether it is subtracted, and the sizes of its words, which follow one another in port A. Port B has addends of one bit."""
    config, digits, at = cell.settings["CONFIG"], cell.settings["CONFIG"] & 15, 0
    for place in range(4, cell.settings["CONFIG_WIDTH"], 2 + 2 * digits):
        is_signed, words = bool(config >> place & 1), []
        for low in (place + 2, place + 2 + digits):
            size = config >> low & ((1 << digits) - 1)
            words.append(Word(cell.ports["A"][at : at + size], is_signed))
            at += size
        yield Product(words[0], words[1] if words[1].bits else ONE, -1 if config >> (place + 1) & 1 else 1)
    for bit in cell.ports["B"]:
        yield Product(Word((bit,)), ONE)


def alu_products(cell: WordCell) -> Optional[list[Product]]:
    """An `$alu` as a sum, if BI and CI are constants: the second word is inverted where BI is 1, and CI is added."""
    invert, carry = cell.ports["BI"][0], cell.ports["CI"][0]
    if not (invert in ("0", "1") and carry in ("0", "1")):
        return None
    width = len(cell.ports["Y"])
    left = Word(extended(cell.ports["A"], width, bool(cell.settings["A_SIGNED"])))
    right = Word(extended(cell.ports["B"], width, bool(cell.settings["B_SIGNED"])))
    found = [Product(left, ONE), Product(right, ONE, -1 if invert == "1" else 1)]
    # The inverse of a word is -word - 1.
    constant = (1 if carry == "1" else 0) - (1 if invert == "1" else 0)
    return [*found, *([Product(ONE, ONE, constant)] if constant else [])]


def extended(bits: tuple[Bit, ...], width: int, is_signed: bool) -> tuple[Bit, ...]:
    """A word as wide as an output."""
    fill: Bit = bits[-1] if is_signed and bits else "0"
    return (*bits, *[fill] * width)[:width]


def sum_of(cell: WordCell, read: frozenset[Bit]) -> Optional[Sum]:
    """The sum that a cell is, or None. `read` has the bits that something reads: an `$alu` of which more than the sum is read isn't one."""
    if cell.kind == MACC:
        return Sum(cell, tuple(macc_products(cell)), len(cell.ports["Y"]))
    if cell.kind == ALU and not read.intersection((*cell.ports["CO"], *cell.ports["X"])):
        products = alu_products(cell)
        return Sum(cell, tuple(products), len(cell.ports["Y"])) if products is not None else None
    return None
