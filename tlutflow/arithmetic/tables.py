"""Tables: which data bits select together among sums of words of parameters, and the biases that keep the entries from being negative.

A group of conditions that together read as many data bits as a LUT has inputs is a table. With a span of 1, bits of equal weight of several
operands are grouped (distributed arithmetic), and with a span of D the digits of D bits of each operand. The biases are chosen so that with the
constants of the sum they add up to 0 modulo 2^width, so nothing is sign-extended, and no constant is added.
"""

from __future__ import annotations

from dataclasses import dataclass, replace
from typing import Iterable

from tlutflow.arithmetic.linear import ALWAYS, CONSTANT, Coefficient, Condition, LinearForm


@dataclass(frozen=True)
class Entry:
    """A condition and the words that are added if it holds."""

    condition: Condition
    coefficient: Coefficient

    @property
    def shift(self) -> int:
        """The lowest weight, as an exponent of 2."""
        return min(trailing(weight) for weight in self.coefficient.values())

    def range(self) -> tuple[int, int]:
        """The least and the greatest value that it adds; none if its condition doesn't hold."""
        constant = self.coefficient.get(CONSTANT, 0)
        weights = [weight for nets, weight in self.coefficient.items() if nets != CONSTANT]
        low, high = constant + sum(min(0, it) for it in weights), constant + sum(max(0, it) for it in weights)
        return (low, high) if self.condition == ALWAYS else (min(0, low), max(0, high))


@dataclass(frozen=True)
class Table:
    """A table: its entries' parts, of which those under no condition are in each entry, how many bits it has, and how far up they are."""

    parts: tuple[Entry, ...]
    shift: int
    width: int = 0

    def range(self) -> tuple[int, int]:
        """The least and the greatest sum."""
        ranges = [it.range() for it in self.parts]
        return sum(low for low, _ in ranges), sum(high for _, high in ranges)

    def with_constant(self, constant: int) -> Table:
        """The table with a constant in each entry."""
        return replace(self, parts=(*self.parts, Entry(ALWAYS, {CONSTANT: constant}))) if constant else self


@dataclass(frozen=True)
class Product:
    """A product of data bits with a weight that is a power of 2 or its negative."""

    condition: Condition
    weight: int


@dataclass(frozen=True)
class Plan:
    """A sum as it is built: tables, products of data bits, and a constant."""

    width: int
    tables: tuple[Table, ...]
    products: tuple[Product, ...]
    constant: int


def trailing(value: int) -> int:
    """The exponent of the greatest power of 2 that divides a number other than 0."""
    return (value & -value).bit_length() - 1


def data_bits(condition: Condition) -> frozenset[int]:
    """The data bits that a condition reads."""
    return frozenset(it.bit for it in condition)


def plan(form: LinearForm, size: int, span: int) -> Plan:
    """Divides a form into tables of so many data bits, and products of data bits alone. Words without a condition are in the highest table that
    begins low enough, so that it alone gets wider."""
    chosen, products, constant = [], [], 0
    always: Coefficient = {}
    for condition, coefficient in form.terms():
        weight = coefficient.get(CONSTANT, 0)
        if condition == ALWAYS:
            constant += weight
            always = {nets: it for nets, it in coefficient.items() if nets != CONSTANT}
        elif set(coefficient) == {CONSTANT} and is_power(weight):
            products.append(Product(condition, weight))
            constant += weight if weight < 0 else 0
        else:
            chosen.append(Entry(condition, coefficient))
    tables = [table_of(group) for group in groups(chosen, form, size, span)]
    tables = with_words(sorted(tables, key=lambda it: it.shift), always)
    if not tables:
        return Plan(form.width, (), tuple(products), constant % (1 << form.width))
    return Plan(form.width, tuple(settled(tables, constant, form.width)), tuple(products), 0)


def is_power(weight: int) -> bool:
    """Whether a weight is a power of 2 or its negative."""
    return abs(weight) & (abs(weight) - 1) == 0


def table_of(parts: Iterable[Entry]) -> Table:
    """The table of some parts."""
    found = tuple(parts)
    return Table(found, min(it.shift for it in found))


def groups(chosen: list[Entry], form: LinearForm, size: int, span: int) -> list[list[Entry]]:
    """Conditions in groups that read at most so many data bits, the lowest weights first. What data bits select together is together."""

    def order(it: Entry) -> tuple[list[int], int, int, int, list[int]]:
        number, place = form.origins[it.condition]
        selects = sorted(data_bits(it.condition))[1:] if len(it.condition) > 1 else []
        return (selects, it.shift // span, number, place, sorted(data_bits(it.condition)))

    found: list[list[Entry]] = []
    bits: frozenset[int] = frozenset()
    for it in sorted(chosen, key=order):
        together = bits | data_bits(it.condition)
        if found and len(together) <= size:
            found[-1].append(it)
            bits = together
        else:
            found.append([it])
            bits = data_bits(it.condition)
    return found


def with_words(tables: list[Table], always: Coefficient) -> list[Table]:
    """Tables with words that no condition selects: each word in the highest table that begins low enough, or else in the first one, which then
    begins lower."""
    if not always:
        return tables
    if not tables:
        return [table_of([Entry(ALWAYS, always)])]
    added: dict[int, Coefficient] = {}
    for nets, weight in always.items():
        able = [place for place, table in enumerate(tables) if table.shift <= trailing(weight)]
        added.setdefault(able[-1] if able else 0, {})[nets] = weight
    return [table_of((*table.parts, Entry(ALWAYS, added[place]))) if place in added else table for place, table in enumerate(tables)]


def settled(tables: list[Table], constant: int, width: int) -> list[Table]:
    """Tables with biases that add up to a constant modulo 2^width, the lowest table first: each takes the least bias that makes its entries
    at least 0, and leaves a rest that is a multiple of the next table's unit."""
    if constant and trailing(constant) < tables[0].shift:
        tables = [replace(tables[0], shift=trailing(constant)), *tables[1:]]
    found, rest = [], constant
    for place, table in enumerate(tables):
        low, high = table.range()
        unit = 1 << (tables[place + 1].shift if place + 1 < len(tables) else width)
        bias = -low + (rest + low) % max(unit, 1 << table.shift)
        rest -= bias
        many = max(1, ((high + bias) >> table.shift).bit_length())
        found.append(replace(table.with_constant(bias), width=min(width - table.shift, many)))
    return found
