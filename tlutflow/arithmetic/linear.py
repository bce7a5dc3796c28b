"""Linear forms: a sum as what each product of data bits multiplies.

A form maps conditions to coefficients. A condition is a set of literals of data bits, and is 1 if all of them are; the empty one always is. A
coefficient is a sum of weights times parameters: it maps a set of nets of parameters, whose product is meant, to a weight; the empty set is
the constant. All is modulo 2^width.
"""

from __future__ import annotations

from dataclasses import dataclass, field
from itertools import combinations
from typing import Iterator, Optional

from tlutflow.arithmetic.sums import Product, Sum, Word
from tlutflow.arithmetic.words import Bit, WordDesign

# How many data bits may choose among the words that a parameter operand can be.
MOST_SELECTS = 3


@dataclass(frozen=True, order=True)
class Literal:
    """A data bit, or its inverse."""

    bit: int
    is_inverted: bool = False


Condition = frozenset[Literal]
Nets = frozenset[int]
Coefficient = dict[Nets, int]
ALWAYS: Condition = frozenset()
CONSTANT: Nets = frozenset()


@dataclass
class LinearForm:
    """A form modulo 2^width, and for each condition where it came from: the number of the word and the place in it."""

    width: int
    coefficients: dict[Condition, Coefficient] = field(default_factory=dict)
    origins: dict[Condition, tuple[int, int]] = field(default_factory=dict)

    def add(self, condition: Condition, nets: Nets, weight: int, origin: tuple[int, int]) -> None:
        """Adds a weight times parameters under a condition; none if the condition is never 1."""
        if any(Literal(it.bit, not it.is_inverted) in condition for it in condition):
            return
        coefficient = self.coefficients.setdefault(condition, {})
        coefficient[nets] = residue(coefficient.get(nets, 0) + weight, self.width)
        self.origins.setdefault(condition, origin)

    def terms(self) -> Iterator[tuple[Condition, Coefficient]]:
        """The conditions whose coefficient isn't 0, each without weights that are 0."""
        for condition, coefficient in self.coefficients.items():
            found = {nets: weight for nets, weight in coefficient.items() if weight}
            if found:
                yield condition, found

    def without_inverses(self) -> LinearForm:
        """The same form with data bits alone in its conditions: what an inverted bit selects is always added, and taken away under the bit."""
        found = LinearForm(self.width)
        for condition, coefficient in self.terms():
            inverted = [it for it in condition if it.is_inverted]
            others = frozenset(condition) - frozenset(inverted)
            for many in range(len(inverted) + 1):
                for chosen in combinations(inverted, many):
                    plain = others | {Literal(it.bit) for it in chosen}
                    for nets, weight in coefficient.items():
                        found.add(plain, nets, (-1) ** many * weight, self.origins[condition])
        return found


def residue(value: int, width: int) -> int:
    """The number that is equal modulo 2^width and nearest to 0."""
    rest = value % (1 << width)
    return rest - (1 << width) if rest > 1 << (width - 1) else rest


@dataclass(frozen=True)
class Part:
    """What a bit of a word adds: under a condition, a product of parameters, with a weight, at a place of the word."""

    condition: Condition
    nets: Nets
    weight: int
    place: int


def parts_of(word: Word, design: WordDesign) -> Iterator[Part]:
    """A word as parts: a data bit is a condition, a parameter a factor, and a parameter that data bits choose is both."""
    for place, (weight, bit) in enumerate(word.weighted()):
        for condition, chosen in choices_of(bit, design):
            if chosen == "1":
                yield Part(condition, CONSTANT, weight, place)
            elif isinstance(chosen, int):
                yield Part(condition, frozenset((chosen,)), weight, place)


def choices_of(bit: Bit, design: WordDesign) -> list[tuple[Condition, Bit]]:
    """The conditions under which a bit is a parameter or a constant, and which one: one for a parameter, several for what multiplexers choose
    among parameters. A data bit is 1 under itself as the condition."""
    found = chosen_of(bit, design, MOST_SELECTS)
    if found is None:
        assert isinstance(bit, int)
        return [(frozenset((Literal(bit),)), "1")]
    return found


def chosen_of(bit: Bit, design: WordDesign, selects: int) -> Optional[list[tuple[Condition, Bit]]]:
    """What multiplexers with so many selecting data bits at most choose among parameters; None for other data."""
    if design.is_fixed(bit):
        return [(ALWAYS, bit)]
    driver = design.drivers.get(bit)
    if driver is None or driver.cell.kind != "$mux" or selects == 0:
        return None
    select, found = driver.cell.ports["S"][0], []
    if not isinstance(select, int) or design.is_fixed(select):
        return None
    for port, is_inverted in (("A", True), ("B", False)):
        below = chosen_of(driver.cell.ports[port][driver.place], design, selects - 1)
        if below is None:
            return None
        found += [(condition | {Literal(select, is_inverted)}, chosen) for condition, chosen in below]
    return found


def linear_form(it: Sum, design: WordDesign) -> LinearForm:
    """The form of a sum."""
    form, number = LinearForm(it.width), 0
    for product in it.products:
        for left, right in pairs(product, design):
            data = left if any(not literal.is_inverted for literal in left.condition) and left.nets == CONSTANT else right
            origin = (number + (data is right), data.place)
            form.add(left.condition | right.condition, left.nets | right.nets, product.sign * left.weight * right.weight, origin)
        number += 2
    return form


def pairs(product: Product, design: WordDesign) -> Iterator[tuple[Part, Part]]:
    """The parts that a product multiplies with one another."""
    right = list(parts_of(product.right, design))
    for left in parts_of(product.left, design):
        for other in right:
            yield left, other
