"""The checker of a sum's certificate, which is apart from what makes it: it reads the module as it is written, and the cell as Yosys wrote it.

Beginning with the bits of the output by their weights, it undoes the steps, the last one first: the bits that a step made are replaced by the bits
that it took. That each step counts right is shown by the truth table of its gates over its inputs, and of a prefix adder by its nodes. The bits of a table are replaced by the sum that the table stands for, if that is at
least 0 and fits, after the table's own steps were undone in the same way. Products of inputs are expanded. What is left has to be the polynomial
of the cell, modulo 2^width.
"""

from __future__ import annotations

from functools import lru_cache
from typing import Any, Callable, Iterable

from tlutflow.arithmetic.certificate import Adder, Certificate, Counter, Table
from tlutflow.arithmetic.meaning import Polynomial, Refused, accumulate, bounds, cell_meaning, constant, inverse, modulo, number, plus, times
from tlutflow.netlist import Cover, parse_library

CONSTANTS = {"0": 0, "1": 1}
# A step that has more inputs has no truth table here.
MOST_INPUTS = 8


# The multiplexer that drives a bit, and the bit's place in it.
Drivers = dict[Any, tuple[dict[str, Any], int]]


class Gates:
    """The gates of a model in BLIF by the names of their nets, and what each output is: a net, its inverse, or a constant."""

    def __init__(self, text: str):
        model = parse_library(text, "the model of a sum").main
        self.inputs, self.outputs = set(model.inputs), set(model.outputs)
        self.gates = {it.output: it for it in model.covers if it.output not in self.outputs}
        self.ends = {it.output: end_of(it) for it in model.covers if it.output in self.outputs}
        if len(self.gates) + len(self.ends) != len(model.covers) or set(self.ends) != self.outputs or model.latches or model.subckts:
            raise Refused("a net of the model has no gate of its own")

    def values(self, net: str, known: dict[str, int], ones: int) -> int:
        """The value of a net in each of several cases, which are the digits of a number, where some nets are known."""
        name = net.lstrip("~")
        if name in CONSTANTS:
            found = ones * CONSTANTS[name]
        elif name in known:
            found = known[name]
        elif name in self.gates:
            cover = self.gates[name]
            found = known[name] = cover_value(cover.rows, [self.values(it, known, ones) for it in cover.inputs], ones)
        else:
            raise Refused(f"{name} isn't made from the inputs of its step")
        return found ^ ones if net != name else found


def end_of(cover: Cover) -> str:
    """What an output is, by its cover."""
    found = {(): "0", (("", "1"),): "1", (("1", "1"),): "".join(cover.inputs), (("0", "1"),): f"~{''.join(cover.inputs)}"}
    rows = tuple(cover.rows)
    if len(cover.inputs) > 1 or rows not in found:
        raise Refused(f"{cover.output} is no net of the model")
    return found[rows]


def cover_value(rows: list[tuple[str, str]], inputs: list[int], ones: int) -> int:
    """The value of a cover whose rows say where it is 1."""
    found = 0
    for cube, _ in rows:
        product = ones
        for digit, value in zip(cube, inputs):
            product &= ones if digit == "-" else value if digit == "1" else value ^ ones
        found |= product
    return found


@lru_cache(maxsize=None)
def columns(many: int) -> tuple[int, ...]:
    """The columns of a truth table of so many inputs, as numbers with a digit for each case."""
    return tuple(sum((case >> place & 1) << case for case in range(1 << many)) for place in range(many))


def cases(names: Iterable[str]) -> tuple[dict[str, int], int]:
    """All cases of some nets: the value of each one in each case, and the value that is 1 in all."""
    listed = list(dict.fromkeys(name.lstrip("~") for name in names if name.lstrip("~") not in CONSTANTS))
    if len(listed) > MOST_INPUTS:
        raise Refused(f"a step has {len(listed)} inputs")
    return dict(zip(listed, columns(len(listed)))), (1 << (1 << len(listed))) - 1


def count_in(number: list[int], start: int, value: int) -> None:
    """Adds a bit of the weight 2^start to a number, in each case at once; the number has a digit for each place."""
    for place in range(start, len(number)):
        number[place], value = number[place] ^ value, number[place] & value


def entries(it: Table) -> tuple[int, int]:
    """A number that no entry of a table is below, and one that none is above: what literals of data select together is 0 or the sum of its words."""
    ranges: dict[tuple[str, ...], tuple[int, int]] = {}
    for addend in it.addends:
        low, high = ranges.get(addend.condition, (0, 0))
        is_always = not addend.parameters
        ranges[addend.condition] = (low + (addend.weight if is_always else min(0, addend.weight)), high + (addend.weight if is_always else max(0, addend.weight)))
    found = [(min(0, low), max(0, high)) if condition else (low, high) for condition, (low, high) in ranges.items()]
    return sum(low for low, _ in found), sum(high for _, high in found)


class Checker:
    """The check of one certificate."""

    def __init__(self, certificate: Certificate, text: str):
        self.certificate, self.gates = certificate, Gates(text)
        self.products: dict[str, Polynomial] = {}

    def literal(self, net: str) -> Polynomial:
        """A net as a polynomial of nets."""
        name = net.lstrip("~")
        found = constant(CONSTANTS[name]) if name in CONSTANTS else {frozenset((name,)): 1}
        return inverse(found) if net != name else found

    def check_counter(self, it: Counter) -> None:
        """Refuses a counter whose outputs aren't the number of its inputs; those without a name may be anything."""
        known, ones = cases([*it.low, *it.high])
        if len(it.low) + 2 * len(it.high) >= 1 << len(it.outputs):
            raise Refused("a counter has too few outputs")
        number = [0] * len(it.outputs)
        for start, nets in ((0, it.low), (1, it.high)):
            for net in nets:
                count_in(number, start, self.gates.values(net, known, ones))
        if any(net and self.gates.values(net, known, ones) != value for net, value in zip(it.outputs, number)):
            raise Refused(f"a counter of {', '.join([*it.low, *it.high])} miscounts")

    def undo_counter(self, it: Counter, left: Polynomial, width: int) -> None:
        """Replaces the outputs of a counter by its inputs."""
        self.check_counter(it)
        for place, net in enumerate(it.outputs, it.place):
            if net:
                accumulate(left, self.literal(net), -(1 << place))
            elif place < width:
                raise Refused("a carry is lost")
        for place, nets in ((it.place, it.low), (it.place + 1, it.high)):
            for net in nets:
                accumulate(left, self.literal(net), 1 << place)

    def check_adder(self, it: Adder) -> None:
        """Refuses a prefix adder whose nodes don't have the carries of their spans, or whose outputs aren't the sum with these."""
        for node in it.nodes:
            if node.upper < 0:
                self.same(node.generate, lambda v: v(it.left[node.low]) & v(it.right[node.low]), [it.left[node.low], it.right[node.low]])
                self.same(node.propagate, lambda v: v(it.left[node.low]) ^ v(it.right[node.low]), [it.left[node.low], it.right[node.low]])
                fits = node.low == node.high
            else:
                high, low = it.nodes[node.upper], it.nodes[node.lower]
                nets = [high.generate, high.propagate, low.generate, low.propagate]
                self.same(node.generate, lambda v: v(high.generate) | v(high.propagate) & v(low.generate), nets)
                self.same(node.propagate, lambda v: v(high.propagate) & v(low.propagate), nets)
                fits = (low.low, low.high + 1, high.high) == (node.low, high.low, node.high)
            if not fits:
                raise Refused("a span of an adder isn't its two halves")
        self.check_sum(it)

    def check_sum(self, it: Adder) -> None:
        """Refuses an adder whose outputs aren't the XOR of both bits and the carry below."""
        if len(it.outputs) != len(it.left) or len(it.carries) != max(0, len(it.left) - 1) or len(it.left) != len(it.right):
            raise Refused("an adder has words of several widths")
        for place, net in enumerate(it.outputs):
            one, other = it.left[place], it.right[place]
            if place == 0:
                self.same(net, lambda v: v(one) ^ v(other), [one, other])
                continue
            below = it.nodes[it.carries[place - 1]]
            if (below.low, below.high) != (0, place - 1):
                raise Refused("a carry of an adder is one of other places")
            self.same(net, lambda v: v(one) ^ v(other) ^ v(below.generate), [one, other, below.generate])

    def same(self, net: str, wanted: Callable[[Callable[[str], int]], int], inputs: list[str]) -> None:
        """Refuses a net that isn't a function of some nets."""
        known, ones = cases(inputs)
        given = dict(known)
        if self.gates.values(net, known, ones) != wanted(lambda it: self.gates.values(it, given, ones)) & ones:
            raise Refused(f"{net} isn't what its adder says")

    def expanded(self, left: Polynomial, width: int) -> Polynomial:
        """A polynomial of inputs alone: each gate that is left has to be a product of inputs."""
        found: Polynomial = {}
        for monomial, weight in modulo(left, width).items():
            product = constant(1)
            for name in monomial:
                product = times(product, self.product(str(name))) if len(monomial) > 1 else self.product(str(name))
            accumulate(found, product, weight)
        return modulo(found, width)

    def product(self, net: str) -> Polynomial:
        """A net as a polynomial of inputs, if it is a product of a few; each net is expanded once."""
        if net not in self.products:
            self.products[net] = self.expanded_product(net)
        return self.products[net]

    def expanded_product(self, net: str) -> Polynomial:
        """A net as a polynomial of inputs, if it is a product of a few."""
        name = net.lstrip("~")
        if name in self.gates.gates:
            cover = self.gates.gates[name]
            if len(cover.rows) != 1:
                raise Refused(f"{name} is in no step")
            found = constant(1)
            for digit, it in zip(cover.rows[0][0], cover.inputs):
                found = times(found, self.product(it if digit == "1" else f"~{it}"))
        else:
            found = self.literal(name)
        return inverse(found) if net != name else found

    def table(self, it: Table) -> tuple[Polynomial, int]:
        """What a table stands for, as a polynomial of inputs, and its lowest weight, after its steps were undone."""
        meaning: Polynomial = {}
        for addend in it.addends:
            product = constant(1)
            for net in [*addend.condition, *addend.parameters]:
                product = times(product, self.literal(net))
            accumulate(meaning, product, addend.weight)
        shift = min(((weight & -weight).bit_length() - 1 for weight in meaning.values() if weight), default=0)
        width = len(it.bits)
        left: Polynomial = {}
        for place, net in enumerate(it.bits):
            accumulate(left, self.literal(net), 1 << place)
        for counter in reversed(it.counters):
            self.undo_counter(counter, left, width)
        units = {monomial: weight >> shift for monomial, weight in meaning.items()}
        if self.expanded(left, width) != modulo(units, width):
            raise Refused("a table isn't the sum of its words")
        return meaning, shift

    def undo_table(self, it: Table, left: Polynomial) -> None:
        """Replaces the bits of a table by what it stands for."""
        meaning, shift = self.table(it)
        width, (low, high) = self.certificate.width, entries(it)
        if (low < 0 or high >> shift >> len(it.bits)) and shift + len(it.bits) < width:
            raise Refused("a table's entries don't fit")
        for place, net in enumerate(it.bits):
            accumulate(left, self.literal(net), -(1 << shift + place))
        accumulate(left, meaning)

    def sum(self) -> Polynomial:
        """What the added bits of the module's output are, as a polynomial of its inputs."""
        it = self.certificate
        self.check_adder(it.adder)
        left: Polynomial = {}
        for word in (it.adder.left, it.adder.right):
            for place, net in enumerate(word):
                accumulate(left, self.literal(net), 1 << place)
        for counter in reversed(it.counters):
            self.undo_counter(counter, left, it.width)
        for table in it.tables:
            self.undo_table(table, left)
        return self.expanded(left, it.width)

    def check_outputs(self, many: int) -> None:
        """Refuses a module whose output isn't that of its adder, and above that its sign or 0."""
        it = self.certificate
        above = it.adder.outputs[-1] if it.is_signed else "0"
        wanted = [*it.adder.outputs, *[above] * (many - it.width)]
        if len(it.adder.outputs) != it.width or [self.gates.ends.get(it) for it in nets_of("Y", many)] != wanted:
            raise Refused("the output isn't that of the last adder")


def check(certificate: Certificate, text: str, instance: dict[str, Any], cell: dict[str, Any], drivers: Drivers) -> None:
    """Refuses a certificate that doesn't show that a module, placed as an instance, has the output of a cell. `drivers` has the multiplexers of the
    design by the bits that they drive."""
    checker, width = Checker(certificate, text), len(cell["connections"]["Y"])
    checker.check_outputs(width)
    names = {bit: net for port in "DP" for bits in [instance["connections"].get(port, [])] for bit, net in zip(bits, nets_of(port, len(bits)))}
    wanted = modulo(cell_meaning(cell, lambda bit: bit_meaning(bit, names, drivers)), width)
    low, high = bounds(wanted, lambda name: str(name).startswith("D"))
    least, most = (-(1 << certificate.width - 1), (1 << certificate.width - 1) - 1) if certificate.is_signed else (0, (1 << certificate.width) - 1)
    if certificate.width < width and not least <= low <= high <= most:
        raise Refused("the sum has more bits than are added")
    if checker.sum() != modulo(wanted, certificate.width):
        raise Refused("the module isn't the sum of its cell")


def nets_of(port: str, width: int) -> list[str]:
    """The nets of a port in BLIF: one of a single bit has no index."""
    return [f"{port}[{place}]" for place in range(width)] if width > 1 else [port]


def bit_meaning(bit: Any, names: dict[Any, str], drivers: Drivers) -> Polynomial:
    """A bit of the design as a polynomial of a module's inputs: one of them, a constant, or what multiplexers choose among these."""
    if isinstance(bit, str):
        return constant(1 if bit == "1" else 0)
    if bit in names:
        return {frozenset((names[bit],)): 1}
    if bit not in drivers:
        # It isn't read by the module, so it has to disappear from what the cell adds.
        return {frozenset((str(bit),)): 1}
    cell, place = drivers[bit]
    select, one, other = (bit_meaning(cell["connections"][port][at], names, drivers) for port, at in (("S", 0), ("A", place), ("B", place)))
    return plus(times(inverse(select), one), times(select, other))


def mux_drivers(cells: dict[str, dict[str, Any]]) -> Drivers:
    """The multiplexers of a design by the bits that they drive."""
    return {bit: (cell, place) for cell in cells.values() if cell["type"] == "$mux" for place, bit in enumerate(cell["connections"]["Y"])}


def check_carries(text: str, instance: dict[str, Any], cell: dict[str, Any]) -> None:
    """Refuses a module that isn't shown to have the outputs of an `$alu`: at each place X is the XOR of A and of B or its inverse, Y that of X and
    the carry below, and CO the carry."""
    gates, width = Gates(text), len(cell["connections"]["Y"])
    for port in "AB":
        if instance["connections"][port] != wide(cell["connections"][port], width, bool(number(cell["parameters"][f"{port}_SIGNED"]))):
            raise Refused("the module reads other words than its cell")
    carry, nets = "CI", {port: nets_of(port, width) for port in ("A", "B", "X", "Y", "CO")}
    for place in range(width):
        first, second = nets["A"][place], nets["B"][place]
        known, ones = cases([first, second, "BI", carry])
        left, right, below = known[first], known[second] ^ known["BI"], gates.values(carry, dict(known), ones)
        ends = [gates.ends[nets[port][place]] for port in ("X", "Y", "CO")]
        if [gates.values(net, dict(known), ones) for net in ends] != [left ^ right, left ^ right ^ below, left & right | (left ^ right) & below]:
            raise Refused("a place of the module isn't that of its cell")
        carry = ends[2]


def wide(bits: list[Any], width: int, is_signed: bool) -> list[Any]:
    """A word as wide as an output."""
    return (bits + [bits[-1] if is_signed and bits else "0"] * width)[:width]
