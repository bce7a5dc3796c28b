"""Sums with parameters as tables: their certificates, what the checker refuses, and the modules against sums of numbers."""

import json
import random
import unittest
from dataclasses import replace

from tlutflow.arithmetic.adders import AdderKind
from tlutflow.arithmetic.checker import check, check_carries, mux_drivers
from tlutflow.arithmetic.meaning import Refused
from tlutflow.arithmetic.modules import Style
from tlutflow.arithmetic.replacing import Replaced, replace_sums
from tlutflow.arithmetic.sampling import ends_of, first_difference
from tlutflow.netlist import parse_library

CLEAR = Style(4, 4, 1, AdderKind.RIPPLE)
STYLES = [CLEAR, Style(4, 4, 4, AdderKind.PREFIX), Style(5, 4, 2, AdderKind.RIPPLE), Style(6, 6, 1, AdderKind.PREFIX), Style(6, 5, 3, AdderKind.RIPPLE, True), Style(2, 2, 1, AdderKind.RIPPLE)]


class Words:
    """A module with word-level cells, as Yosys writes it in JSON; its ports are made as they are needed."""

    def __init__(self) -> None:
        self.next, self.ports, self.cells = 2, {}, {}

    def bits(self, many: int) -> list:
        """New nets."""
        self.next += many
        return list(range(self.next - many, self.next))

    def port(self, name: str, many: int, direction: str = "input") -> list:
        """A port of the module."""
        self.ports[name] = {"direction": direction, "bits": self.bits(many)}
        return self.ports[name]["bits"]

    def cell(self, kind: str, settings: dict, inputs: dict, outputs: dict) -> None:
        """A cell."""
        ways = {**dict.fromkeys(inputs, "input"), **dict.fromkeys(outputs, "output")}
        numbers = {key: format(value, "064b") for key, value in settings.items()}
        self.cells[f"c{len(self.cells)}"] = {"type": kind, "parameters": numbers, "port_directions": ways, "connections": {**inputs, **outputs}}

    def macc(self, terms: list, output: list, loose: list = ()) -> None:
        """A `$macc`: terms of two words, whether they are signed, and whether they are subtracted."""
        config, at, bits = 5, 4, []
        for left, right, is_signed, is_subtracted in terms:
            for value, many in ((is_signed, 1), (is_subtracted, 1), (len(left), 5), (len(right), 5)):
                config |= int(value) << at
                at += many
            bits += [*left, *right]
        self.cell("$macc", {"CONFIG": config, "CONFIG_WIDTH": at}, {"A": bits, "B": list(loose)}, {"Y": output})

    def design(self) -> dict:
        """The design of the module."""
        return {"modules": {"top": {"ports": self.ports, "cells": self.cells, "netnames": {}}}}


def value_of(bits: list, values: dict, is_signed: bool) -> int:
    """The number that a word is."""
    digits = [int(it) if isinstance(it, str) else values[it] for it in bits]
    found = sum(digit << place for place, digit in enumerate(digits))
    return found - (1 << len(digits)) if is_signed and digits and digits[-1] else found


def drawn_words(draw: random.Random) -> tuple[Words, list]:
    """A module with one sum of products of data, parameters and constants, and its terms."""
    it = Words()
    words = [it.port(f"{kind}{number}", draw.randint(1, 7)) for kind in "xp" for number in range(3)]
    words.append(list(draw.choice(["0110", "11", "1"])))
    terms = [(draw.choice(words), draw.choice([*words, []]), draw.random() < 0.5, draw.random() < 0.4) for _ in range(draw.randint(1, 5))]
    it.macc(terms, it.port("y", draw.randint(3, 18), "output"), draw.sample(words[0] + words[3], 2))
    return it, terms


def outputs_of(found: Replaced, values: dict) -> int:
    """The output of the one module, for values of the design's bits."""
    made = found.sums[0]
    model = parse_library(made.text, "sum").main
    order = [*made.ports["D"], *made.ports["P"]]
    ends = ends_of(model, {net: values[bit] for net, bit in zip(model.inputs, order)}, 1)
    return sum(ends[f"output {net}"] << place for place, net in enumerate(model.outputs))


class Sums(unittest.TestCase):
    def test_modules_add(self):
        """Drawn sums in each style: the module's output is the sum of the products, computed with numbers."""
        draw = random.Random(7)
        for number in range(90):
            it, terms = drawn_words(draw)
            found = replace_sums(it.design(), "top", ["p0", "p1", "p2"], STYLES[number % len(STYLES)])
            for _ in range(20 if found.sums else 0):
                pattern = draw.choice([0, 1, None])
                values = {bit: draw.randint(0, 1) if pattern is None else pattern for bit in range(2, it.next)}
                wanted = sum(value_of([bit], values, False) for bit in it.cells["c0"]["connections"]["B"])
                for left, right, is_signed, is_subtracted in terms:
                    product = value_of(left, values, is_signed) * (value_of(right, values, is_signed) if right else 1)
                    wanted += -product if is_subtracted else product
                self.assertEqual(outputs_of(found, values), wanted % (1 << len(it.ports["y"]["bits"])), number)

    def test_a_choice_between_parameters_is_a_condition(self):
        """`(s ? p : q) * x` is one table of x and s, without a multiplexer of data, and is added as such."""
        it = Words()
        x, s, p, q, chosen = it.port("x", 3), it.port("s", 1), it.port("p", 4), it.port("q", 4), it.bits(4)
        it.cell("$mux", {"WIDTH": 4}, {"A": q, "B": p, "S": s}, {"Y": chosen})
        it.macc([(chosen, x, False, False)], it.port("y", 7, "output"))
        found = replace_sums(it.design(), "top", ["p", "q"], CLEAR)
        self.assertEqual([inputs for inputs, _ in found.sums[0].tables], [4])
        values = {bit: 1 for bit in range(2, it.next)}
        values.update(zip(q, (0, 1, 0, 0)))
        self.assertEqual(outputs_of(found, values), 7 * 15)
        self.assertEqual(outputs_of(found, {**values, s[0]: 0}), 7 * 2)

    def test_what_has_no_parameter_stays(self):
        it = Words()
        it.macc([(it.port("x", 4), it.port("z", 4), False, False)], it.port("y", 8, "output"))
        self.assertEqual(replace_sums(it.design(), "top", [], CLEAR).modules, [])

    def test_a_sum_of_few_values_has_few_bits(self):
        """x * p of two bits each in 24 bits: four bits are added, and the others are constant."""
        it = Words()
        it.macc([(it.port("x", 2), it.port("p", 2), False, False)], it.port("y", 24, "output"))
        self.assertEqual(replace_sums(it.design(), "top", ["p"], CLEAR).sums[0].certificate.width, 4)


class Planted(unittest.TestCase):
    """Wrong bits in a module or its certificate, each of which the checker refuses."""

    def setUp(self) -> None:
        it = Words()
        x, z, p, q = it.port("x", 5), it.port("z", 5), it.port("p", 5), it.port("q", 5)
        it.macc([(x, p, True, False), (z, q, True, True), (x, z, False, False)], it.port("y", 12, "output"))
        self.before = it.design()["modules"]["top"]["cells"]
        self.found = replace_sums(it.design(), "top", ["p", "q"], replace(CLEAR, adder=AdderKind.PREFIX))
        self.made = self.found.sums[0]
        self.certificate = self.made.certificate

    def refused(self, certificate, text: str) -> bool:
        """Whether the checker refuses a certificate with a module."""
        try:
            check(certificate, text, self.found.json["modules"]["top"]["cells"]["c0"], self.before["c0"], mux_drivers(self.before))
        except Refused:
            return True
        return False

    def test_what_was_made_is_accepted(self):
        self.assertFalse(self.refused(self.certificate, self.made.text))

    def test_each_gate_counts(self):
        """Each gate's cover with a digit turned, one at a time; a gate that no output depends on may be anything."""
        lines, wrong, equal = self.made.text.splitlines(), 0, 0
        source = parse_library(self.made.text, "sum").main
        for place, line in enumerate(lines):
            if line[:1] in ("0", "1") and len(line.split()) == 2:
                text = "\n".join([*lines[:place], ("1" if line[0] == "0" else "0") + line[1:], *lines[place + 1 :], ""])
                if first_difference(source, parse_library(text, "sum").main, cases=1 << 14) is None:
                    equal += 1
                    continue
                wrong += 1
                self.assertTrue(self.refused(self.certificate, text), line)
        self.assertGreater(wrong, 100)

    def test_weights_biases_and_steps(self):
        """A weight of a table, its bias, a counter's place, a counter left out, a carry that is lost, and words of the last adder exchanged."""
        it, tables, counters = self.certificate, self.certificate.tables, self.certificate.counters

        def with_addend(place: int, **changed) -> object:
            addends = list(tables[0].addends)
            addends[place] = replace(addends[place], **changed)
            return replace(it, tables=(replace(tables[0], addends=tuple(addends)), *tables[1:]))

        bias = next(place for place, addend in enumerate(tables[0].addends) if not addend.parameters)
        wrong = [
            with_addend(0, weight=2 * tables[0].addends[0].weight),
            with_addend(bias, weight=tables[0].addends[bias].weight + 1),
            with_addend(0, condition=tables[0].addends[-2].condition or ("D[0]",)),
            replace(it, counters=(replace(counters[0], place=counters[0].place + 1), *counters[1:])),
            replace(it, counters=counters[1:]),
            replace(it, counters=(replace(counters[0], outputs=(counters[0].outputs[0], "")), *counters[1:])),
            replace(it, tables=tables[1:]),
            replace(it, adder=replace(it.adder, left=it.adder.left[1:] + ("0",))),
            replace(it, adder=replace(it.adder, carries=(it.adder.carries[1], *it.adder.carries[1:]))),
            replace(it, width=it.width - 1),
            replace(it, is_signed=not it.is_signed) if it.width < 12 else replace(it, width=11),
        ]
        for number, certificate in enumerate(wrong):
            self.assertTrue(self.refused(certificate, self.made.text), number)

    def test_another_cell(self):
        """A module whose cell subtracts where it adds, or reads its words the other way round."""
        text = json.dumps(self.before["c0"]["connections"]["A"])
        for connections in (json.loads(text)[::-1], json.loads(text)[1:] + json.loads(text)[:1]):
            cell = {**self.before["c0"], "connections": {**self.before["c0"]["connections"], "A": connections}}
            with self.assertRaises(Refused):
                check(self.certificate, self.made.text, self.found.json["modules"]["top"]["cells"]["c0"], cell, {})

    def test_carries(self):
        """A comparison with a parameter: each digit that is turned is refused."""
        it = Words()
        ports = {"A": it.port("x", 4), "B": it.port("p", 4), "BI": ["1"], "CI": ["1"]}
        it.cell("$alu", {"A_SIGNED": 0, "B_SIGNED": 0}, ports, {"X": it.bits(4), "Y": it.bits(4), "CO": it.port("less", 4, "output")})
        found = replace_sums(it.design(), "top", ["p"], CLEAR)
        made, cell, placed = found.carries[0], it.cells["c0"], found.json["modules"]["top"]["cells"]["c0"]
        check_carries(made.text, placed, cell)
        lines = made.text.splitlines()
        for place, line in enumerate(lines):
            if line[:1] in ("0", "1"):
                with self.assertRaises(Refused):
                    check_carries("\n".join([*lines[:place], ("1" if line[0] == "0" else "0") + line[1:], *lines[place + 1 :], ""]), placed, cell)


if __name__ == "__main__":
    unittest.main()
