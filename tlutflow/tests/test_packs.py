"""Packs in both versions, and formulas of their bits."""

import random
import re
import unittest

from tlutflow.faults import Fault
from tlutflow.pack import Pack, parse_pack
from tlutflow.parameters import read_interface
from tlutflow.reports.formula import Formulas
from tlutflow.runs.output import parse_output
from tlutflow.runs.script import read_script
from tlutflow.tests.helpers import DATA, EXAMPLES, MUX_PACK, MUX_PACK_1, example

AND_1 = bytes.fromhex("54505043 0001 0002 0001 70 00 0001 71 00 00000001 00000002 00000004 00000001 00000006")
AND_2 = bytes.fromhex("54505043 0002 02 01 70 00 01 71 00 01 02 02 01 06")


def example_pack(name: str) -> Pack:
    with open(f"{DATA}/{name}.ppc", "rb") as file:
        return parse_pack(file.read(), name)


class Evaluator:
    """The value of a formula. In one pair of parentheses, or outside of all, there is one kind of operator."""

    def __init__(self, values: dict[str, int], shared: dict[str, str]):
        self.values, self.shared = values, shared

    def value(self, text: str) -> int:
        """The value of a whole formula."""
        self.tokens = re.findall(r"[()!]|[^\s()!]+", text)
        value = self.row()
        assert not self.tokens, text
        return value

    def row(self) -> int:
        """The value of operands with operators between them."""
        value, signs = self.operand(), set()
        while self.tokens and self.tokens[0] in ("&", "|", "^", "?"):
            sign = self.tokens.pop(0)
            signs.add(sign)
            other = self.operand()
            if sign == "?":
                assert self.tokens.pop(0) == ":"
                last = self.operand()
                value = other if value else last
            else:
                value = {"&": value & other, "|": value | other, "^": value ^ other}[sign]
        assert len(signs) < 2
        return value

    def operand(self) -> int:
        """The value of a name, a constant, a complement, or what stands in parentheses."""
        token = self.tokens.pop(0)
        if token == "!":
            return 1 ^ self.operand()
        if token == "(":
            value = self.row()
            assert self.tokens.pop(0) == ")"
            return value
        if token in self.shared:
            return Evaluator(self.values, self.shared).value(self.shared[token])
        return int(token) if token in ("0", "1") else self.values[token]


class Packs(unittest.TestCase):
    def test_both_versions(self):
        for data in (MUX_PACK_1, MUX_PACK):
            self.assertEqual(parse_pack(data, "p"), Pack({"p": 0}, [], [0, 2, 3, 1]))
        for data in (AND_1, AND_2):
            self.assertEqual(parse_pack(data, "p"), Pack({"p": 0, "q": 0}, [(2, 4)], [6]))

    def test_configurations(self):
        pack = parse_pack(MUX_PACK, "p")
        self.assertEqual(pack.configuration(), [0, 0, 1, 1])
        self.assertEqual(pack.configuration({"p": 1}), [0, 1, 0, 1])
        both = parse_pack(AND_2, "p")
        self.assertEqual([both.configuration({"p": a, "q": b}) for a in (0, 1) for b in (0, 1)], [[0], [0], [0], [1]])
        self.assertEqual(both.supports(), [3])

    def test_changes_of_the_examples(self):
        """The writes of each set are the bits in which two configurations differ."""
        for name, script, printed in (("fir", "changing", "expected_changing"), ("matcher", "patterns", "expected"), ("coder", "keys", "expected")):
            pack = example_pack(name)
            values = dict(pack.parameters)
            interface = read_interface(f"{EXAMPLES}/{name}/{name}.blif", f"{EXAMPLES}/{name}/{name}.par")
            self.assertEqual(interface.parameters, values)
            events = read_script(f"{EXAMPLES}/{name}/{script}.scr", interface.regular)
            for event, line in zip(events, parse_output(example(f"{name}/{printed}.txt"), name).events):
                if event.word == "set":
                    before = pack.configuration(values)
                    values.update(event.values)
                    after = pack.configuration(values)
                    self.assertEqual(line.writes, [(at, new) for at, (old, new) in enumerate(zip(before, after)) if old != new])

    def test_spoilt_packs(self):
        for data in (b"", b"TPPX", MUX_PACK[:-1], MUX_PACK + b"\0", b"TPPC\0\3", MUX_PACK[:-1] + b"\4", AND_2[:-4] + bytes.fromhex("0002 01 06")):
            with self.assertRaises(Fault, msg=data.hex()):
                parse_pack(data, "p")


class FormulaTexts(unittest.TestCase):
    def texts(self, pack: Pack) -> list[str]:
        formulas = Formulas(pack)
        return [formulas.of_bit(address) for address in range(len(pack.bits))]

    def test_small_ones(self):
        self.assertEqual(self.texts(parse_pack(MUX_PACK, "p")), ["0", "p", "!p", "1"])
        self.assertEqual(self.texts(parse_pack(AND_2, "p")), ["p & q"])
        # Nodes 4 = a & b, 5 = !(a & b) & c, 6 = !a & !b, 7 = !4 & !6, which is a ^ b.
        pack = Pack({"a": 0, "b": 0, "c": 0}, [(2, 4), (6, 9), (3, 5), (9, 13)], [9, 11, 10, 14, 15, 13])
        self.assertEqual(self.texts(pack), ["!a | !b", "!c | (a & b)", "c & (!a | !b)", "a ^ b", "!a ^ b", "a | b"])

    def test_choice(self):
        # Nodes 4 = c & a, 5 = !c & b, 6 = !4 & !5: bit 12 is the complement of c ? a : b.
        pack = Pack({"c": 0, "a": 0, "b": 0}, [(2, 4), (3, 6), (9, 11)], [13, 12])
        self.assertEqual(self.texts(pack), ["c ? a : b", "c ? !a : !b"])

    def test_shared_nodes_have_names(self):
        # Node 8 is a & b & c & d, and two bits read it.
        pack = Pack({it: 0 for it in "abcde"}, [(2, 4), (6, 8), (12, 14), (10, 16), (11, 16)], [18, 20])
        formulas = Formulas(pack)
        texts = [formulas.of_bit(0), formulas.of_bit(1)]
        self.assertEqual(texts, ["e & g8", "!e & g8"])
        self.assertEqual(formulas.definitions(texts), ["g8 = a & b & c & d"])
        self.assertEqual(Formulas(Pack({"g8": 0, **pack.parameters}, [], [])).mark, "_g")

    def test_formulas_have_the_values_of_the_bits(self):
        chance = random.Random(5)
        for name in ("fir", "matcher", "coder"):
            pack = example_pack(name)
            formulas = Formulas(pack)
            texts = [formulas.of_bit(address) for address in range(len(pack.bits))]
            shared = dict(line.split(" = ", 1) for line in formulas.definitions(texts))
            for _ in range(4):
                values = {it: chance.randrange(2) for it in pack.parameters}
                self.assertEqual([Evaluator(values, shared).value(text) for text in texts], pack.configuration(values), name)
