"""What a cell adds, as the checker of certificates reads it: a polynomial of bits with whole coefficients, modulo a power of 2.

A polynomial maps monomials to coefficients. A monomial is a set of bits, whose product is meant, since the square of a bit is the bit; the empty
one is 1.
"""

from __future__ import annotations

from typing import Any, Callable, Hashable, Iterable, Optional

from tlutflow.faults import Fault

Monomial = frozenset[Hashable]
Polynomial = dict[Monomial, int]
UNIT: Monomial = frozenset()
# What a bit of the design is as a polynomial.
BitMeaning = Callable[[Any], Polynomial]


class Refused(Fault):
    """Why a certificate doesn't show that a module is its cell."""


def accumulate(total: Polynomial, right: Polynomial, factor: int = 1) -> None:
    """Adds a multiple of a polynomial to another one, in place; coefficients may become 0."""
    for monomial, weight in right.items():
        total[monomial] = total.get(monomial, 0) + factor * weight


def plus(left: Polynomial, right: Polynomial, factor: int = 1) -> Polynomial:
    """The sum of a polynomial and a multiple of another one."""
    found = dict(left)
    accumulate(found, right, factor)
    return {monomial: weight for monomial, weight in found.items() if weight}


def times(left: Polynomial, right: Polynomial) -> Polynomial:
    """The product of two polynomials."""
    found: Polynomial = {}
    for monomial, weight in left.items():
        for other, factor in right.items():
            found[monomial | other] = found.get(monomial | other, 0) + weight * factor
    return {monomial: weight for monomial, weight in found.items() if weight}


def constant(value: int) -> Polynomial:
    """A polynomial without bits."""
    return {UNIT: value} if value else {}


def inverse(it: Polynomial) -> Polynomial:
    """The inverse of a bit."""
    return plus(constant(1), it, -1)


def modulo(it: Polynomial, width: int) -> Polynomial:
    """A polynomial whose coefficients are the ones nearest to 0 that are equal modulo 2^width."""
    found, whole = {}, 1 << width
    for monomial, weight in it.items():
        rest = weight % whole
        if rest:
            found[monomial] = rest - whole if 2 * rest > whole else rest
    return found


def bounds(it: Polynomial, is_selecting: Callable[[Hashable], bool]) -> tuple[int, int]:
    """A number that the polynomial never is below, and one that it is never above: what some bits select together is 0 or the sum of its words."""
    ranges: dict[Monomial, tuple[int, int]] = {}
    for monomial, weight in it.items():
        selects = frozenset(filter(is_selecting, monomial))
        low, high = ranges.get(selects, (0, 0))
        is_always = selects == monomial
        ranges[selects] = (low + (weight if is_always else min(0, weight)), high + (weight if is_always else max(0, weight)))
    found = [(min(0, low), max(0, high)) if selects else (low, high) for selects, (low, high) in ranges.items()]
    return sum(low for low, _ in found), sum(high for _, high in found)


def word(bits: Iterable[Any], is_signed: bool, meaning: BitMeaning) -> Polynomial:
    """A word of bits, the lowest first."""
    found: Polynomial = {}
    listed = list(bits)
    for place, bit in enumerate(listed):
        is_sign = is_signed and place == len(listed) - 1
        accumulate(found, meaning(bit), -(1 << place) if is_sign else 1 << place)
    return found


def number(text: Any) -> int:
    """A number that configures a cell, which Yosys writes in binary digits."""
    return int(text, 2) if isinstance(text, str) else int(text)


def macc_meaning(cell: dict[str, Any], meaning: BitMeaning) -> Polynomial:
    """What a `$macc` adds: in CONFIG are the number of digits of a size, and for each product its sign, whether it is subtracted, and two sizes;
    the words follow one another in A, and each bit of B is added."""
    digits = number(cell["parameters"]["CONFIG_WIDTH"])
    config = [number(cell["parameters"]["CONFIG"]) >> place & 1 for place in range(digits)]
    bits, found = list(cell["connections"]["A"]), constant(0)

    def taken(many: int) -> int:
        return sum(config.pop(0) << place for place in range(many))

    size = taken(4)
    while config:
        is_signed, is_subtracted, first, second = taken(1), taken(1), taken(size), taken(size)
        left, right, bits = bits[:first], bits[first : first + second], bits[first + second :]
        product = word(left, bool(is_signed), meaning)
        if second:
            product = times(product, word(right, bool(is_signed), meaning))
        accumulate(found, product, -1 if is_subtracted else 1)
    for bit in cell["connections"]["B"]:
        accumulate(found, meaning(bit))
    return found


def alu_meaning(cell: dict[str, Any], meaning: BitMeaning) -> Optional[Polynomial]:
    """What the output Y of an `$alu` is: A, and B or its inverse, and CI, if it is a constant which of both."""
    ports, settings = cell["connections"], cell["parameters"]
    invert, width = ports["BI"][0], len(ports["Y"])
    if invert not in ("0", "1"):
        return None
    words = []
    for port in "AB":
        bits, is_signed = list(ports[port]), bool(number(settings[f"{port}_SIGNED"]))
        fill = bits[-1] if is_signed and bits else "0"
        words.append((bits + [fill] * width)[:width])
    second = word(words[1], False, (lambda bit: inverse(meaning(bit))) if invert == "1" else meaning)
    return plus(plus(word(words[0], False, meaning), second), meaning(ports["CI"][0]))


def cell_meaning(cell: dict[str, Any], meaning: BitMeaning) -> Polynomial:
    """What the output of a cell is."""
    found = macc_meaning(cell, meaning) if cell["type"] == "$macc" else alu_meaning(cell, meaning) if cell["type"] == "$alu" else None
    if found is None:
        raise Refused(f"a cell {cell['type']} is no sum")
    return found
