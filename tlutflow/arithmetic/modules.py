"""A sum as a model of gates in BLIF with its certificate. Its port D has the data bits, P the nets of parameters, and Y is the sum."""

from __future__ import annotations

from dataclasses import dataclass
from typing import Iterable

from tlutflow.arithmetic.adders import AdderKind, add
from tlutflow.arithmetic.certificate import Addend, Certificate
from tlutflow.arithmetic.certificate import Table as TableSteps
from tlutflow.arithmetic.gates import ONE, ZERO, Sheet, inverse, port_nets
from tlutflow.arithmetic.heap import FULL_ADDER, Heap, compress
from tlutflow.arithmetic.linear import Condition, LinearForm
from tlutflow.arithmetic.words import Bit, WordCell
from tlutflow.arithmetic.tables import Entry, Table, data_bits, plan


@dataclass(frozen=True)
class Style:
    """How sums are built: inputs of a LUT, data bits of a table at most, how many neighbouring bits of an operand stay together, the last adder,
    and whether sums of data alone are built too."""

    size: int
    digit: int
    span: int
    adder: AdderKind
    has_data: bool = False


@dataclass(frozen=True)
class SumModule:
    """A module: its name, its text, the bits of its ports, its certificate, and for each of its tables how many data bits select and how many bits
    it has."""

    name: str
    text: str
    ports: dict[str, tuple[Bit, ...]]
    certificate: Certificate
    tables: tuple[tuple[int, int], ...]
    outputs: tuple[str, ...] = ("Y",)


class SumBuilder:
    """The gates of a sum: a sheet, and the nets of its ports by the design's bits."""

    def __init__(self, form: LinearForm, style: Style):
        self.style, self.width, self.sheet = style, form.width, Sheet()
        self.form, self.is_signed = narrowed(form)
        self.data = sorted({it.bit for condition, _ in form.terms() for it in condition})
        self.parameters = sorted({net for _, coefficient in form.terms() for nets in coefficient for net in nets})
        self.nets = dict(zip([*self.data, *self.parameters], port_nets({"D": len(self.data), "P": len(self.parameters)})))

    def literals(self, condition: Condition) -> list[str]:
        """The nets of a condition's literals."""
        return [inverse(self.nets[it.bit]) if it.is_inverted else self.nets[it.bit] for it in sorted(condition)]

    def addends(self, part: Entry) -> Iterable[Addend]:
        """A table's part as its certificate has it."""
        for nets, weight in part.coefficient.items():
            yield Addend(tuple(self.literals(part.condition)), tuple(self.nets[it] for it in sorted(nets)), weight)

    def table(self, table: Table) -> TableSteps:
        """The bits of a table, as logic that reads no data but the literals of its conditions."""
        heap, addends = Heap(self.sheet, table.width), [it for part in table.parts for it in self.addends(part)]
        constant = 0
        for it in addends:
            net, weight = self.sheet.all_of([*it.condition, *it.parameters]), it.weight >> table.shift
            constant += self.weigh(heap, net, weight)
        heap.add_constant(constant)
        compress(heap, 4)
        bits = settle_carries(heap)
        return TableSteps(tuple(addends), tuple(bits), tuple(heap.counters))

    def weigh(self, heap: Heap, net: str, weight: int) -> int:
        """Adds a weighted bit to a heap, as bits at the places where the weight has digits; returns the constant that is left, since a bit that
        counts negative is inverted."""
        if net == ONE:
            return weight
        constant = 0
        for place, digit in digits_of(weight):
            heap.add(net if digit > 0 else inverse(net), place)
            constant -= 1 << place if digit < 0 else 0
        return constant

    def module(self, cell: WordCell, name: str) -> SumModule:
        """The module of the form."""
        made = plan(self.form, self.style.digit, self.style.span)
        heap, tables = Heap(self.sheet, made.width), []
        for table in made.tables:
            steps = self.table(table)
            tables.append(steps)
            for at, bit in enumerate(steps.bits):
                heap.add(bit, table.shift + at)
        for it in made.products:
            literals = self.literals(it.condition)
            net = self.sheet.all_of(literals)
            leaves = tuple(literals) if len(literals) > 1 else ()
            heap.add(inverse(net) if it.weight < 0 else net, abs(it.weight).bit_length() - 1, 0, leaves)
        heap.add_constant(made.constant)
        compress(heap, self.style.size)
        adder = add(heap, self.style.adder)
        certificate = Certificate(cell.name, name, made.width, self.is_signed, tuple(tables), tuple(heap.counters), adder)
        sizes = tuple((len(frozenset().union(*(data_bits(part.condition) for part in it.parts))), it.width) for it in made.tables)
        ports: dict[str, tuple[Bit, ...]] = {"D": tuple(self.data), "P": tuple(self.parameters), "Y": cell.ports["Y"]}
        return SumModule(name, self.text(name, adder.outputs), ports, certificate, sizes)

    def text(self, name: str, sums: tuple[str, ...]) -> str:
        """The module as a model in BLIF."""
        above = sums[-1] if self.is_signed else ZERO
        outputs = dict(zip(port_nets({"Y": self.width}), [*sums, *[above] * (self.width - len(sums))]))
        return self.sheet.model(name, list(self.nets.values()), outputs)


def digits_of(weight: int) -> Iterable[tuple[int, int]]:
    """The places of a weight with their digits 1 and -1, no two of them neighbours."""
    place = 0
    while weight:
        if weight & 1:
            digit = 2 - (weight & 3)
            weight -= digit
            yield place, digit
        weight, place = weight >> 1, place + 1


def settle_carries(heap: Heap) -> list[str]:
    """The sum of a heap with at most two bits a weight, from place to place."""
    found = []
    for place in range(heap.width):
        column = heap.columns[place]
        if len(column) > 1:
            heap.count(place, column[: FULL_ADDER.low], [])
        found.append(heap.columns[place][0].net if heap.columns[place] else ZERO)
    return found


def sum_module(form: LinearForm, style: Style, cell: WordCell, name: str) -> SumModule:
    """The module of a form."""
    return SumBuilder(form, style).module(cell, name)


def narrowed(form: LinearForm) -> tuple[LinearForm, bool]:
    """A form of only as many bits as its values have, and whether these are signed: bits above are copies of the sign, or 0."""
    ranges = [Entry(condition, coefficient).range() for condition, coefficient in form.without_inverses().terms()]
    low, high = sum(least for least, _ in ranges), sum(most for _, most in ranges)
    is_signed = low < 0
    width = max(1, max(high.bit_length(), (-1 - low).bit_length()) + 1 if is_signed else high.bit_length())
    if width >= form.width:
        return form, False
    found = LinearForm(width, origins=form.origins)
    for condition, coefficient in form.terms():
        for nets, weight in coefficient.items():
            found.add(condition, nets, weight, form.origins[condition])
    return found, is_signed
