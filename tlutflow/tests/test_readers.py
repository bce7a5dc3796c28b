"""Logical lines, netlists, parameter lists, scripts, lines of the output, and fault lines."""

import unittest

from tlutflow.fault_line import FaultLine, parse_fault
from tlutflow.faults import Fault
from tlutflow.netlist import FlatLatch, parse_library
from tlutflow.parameters import State, interface_of, parse_parameters
from tlutflow.runs.output import parse_output
from tlutflow.runs.script import parse_script
from tlutflow.tests.helpers import EXAMPLES, MUX, example
from tlutflow.text import logical_lines

# Two instances of a model with a latch, below and behind a latch of the top, and a clock that they are connected to.
NESTED = """.model top
.inputs d
.outputs q
.clock c
.subckt cell k=c i=d o=t
.subckt cell k=c i=t o=q
.latch d own re c 1
.end
.model cell
.inputs i k
.outputs o
.latch i o re k 3
.end
"""


class Lines(unittest.TestCase):
    def lines(self, text):
        return [(line.number, line.tokens) for line in logical_lines(text)]

    def test_comments_continued_lines_and_numbers(self):
        text = "# off\na b # c\n\td \\ # goes on\n\n e\\\n\nf\\"
        self.assertEqual(self.lines(text), [(2, ["a", "b"]), (3, ["d"]), (5, ["e"]), (7, ["f"])])
        self.assertEqual(self.lines("a \\\r\nb\r\n"), [(1, ["a", "b"])])

    def test_only_blanks_and_tabs_part_tokens(self):
        self.assertEqual(self.lines("a\u00a0b\u2028c d"), [(1, ["a\u00a0b\u2028c", "d"])])


class Netlists(unittest.TestCase):
    def test_covers_and_ports(self):
        main = parse_library(MUX, "n").main
        self.assertEqual((main.name, main.inputs, main.outputs), ("mux", ["a", "b", "p"], ["y"]))
        self.assertEqual([(it.inputs, it.output, it.rows) for it in main.covers], [(["p", "a", "b"], "y", [("11-", "1"), ("0-1", "1")])])

    def test_latch_forms(self):
        text = ".model m\n.latch a b\n.latch a c 1\n.latch a d re k\n.latch a e re NIL 1\n.latch a f re k 2\n.end"
        latches = parse_library(text, "n").main.latches
        self.assertEqual([(it.control, it.start) for it in latches], [(None, 0), (None, 1), ("k", 0), (None, 1), ("k", 0)])

    def test_flat_order_and_clock_nets(self):
        library = parse_library(NESTED, "n")
        self.assertEqual(library.flat_latches(), [FlatLatch("own", "c", 1), FlatLatch("0/o", "c", 0), FlatLatch("1/o", "c", 0)])
        self.assertEqual(library.clock_nets(), ["c"])

    def test_interface(self):
        interface = interface_of(parse_library(NESTED, "n"), {}, "p")
        self.assertEqual((interface.regular, interface.outputs), (["d"], ["q"]))
        self.assertEqual(interface.states[0], State("own", 1))
        mux = interface_of(parse_library(MUX, "n"), {"a": 1}, "p")
        self.assertEqual((mux.regular, mux.parameters), (["b", "p"], {"a": 1}))

    def test_faults(self):
        for text in ("", "# nothing", ".model", ".model m\n1 1", ".model m\n.names a y\n11 1", ".model m\n.gate g", ".inputs a"):
            with self.assertRaises(Fault, msg=text):
                parse_library(text, "n")
        with self.assertRaises(Fault):
            parse_library(".model m\n.subckt m\n.end", "n").flat_latches()
        with self.assertRaises(Fault):
            interface_of(parse_library(NESTED, "n"), {"c": 0}, "p")


class Texts(unittest.TestCase):
    def test_lists(self):
        self.assertEqual(parse_parameters("# c\nmode 1\ngain0 0\ngain1 \\\n  1\n", "p"), {"mode": 1, "gain0": 0, "gain1": 1})
        for text in ("p", "p 2", "p 1\np 0"):
            with self.assertRaises(Fault):
                parse_parameters(text, "p")

    def test_scripts(self):
        events = parse_script("cycle 10\nset x=y=1 z=0\nupset 3\nscrub\nimage", "s", ["a", "b"])
        self.assertEqual([event.word for event in events], ["cycle", "set", "upset", "scrub", "image"])
        self.assertEqual([event.values for event in events[:2]], [{"a": 1, "b": 0}, {"x=y": 1, "z": 0}])
        self.assertEqual(parse_script("cycle -", "s", [])[0].values, {})
        for text in ("cycle 1", "cycle 1 0", "go", "set p=2x"):
            with self.assertRaises(Fault):
                parse_script(text, "s", ["a", "b"])

    def test_output_of_the_examples(self):
        output = parse_output(example("mux/expected.txt"), "o")
        self.assertEqual((output.header.tables, output.header.bits, output.header.depth), (1, 4, 1))
        self.assertEqual([(it.word, it.writes) for it in output.events[2:3]], [("set", [(1, 1), (2, 0)])])
        self.assertEqual((output.events[0].outputs, output.events[0].states), ("0", ""))
        for name in ("fir/expected_changing.txt", "matcher/expected.txt", "coder/expected.txt", "and2/expected.txt"):
            text = example(name)
            self.assertEqual([output.text for output in parse_output(text, "o").events], text.splitlines()[1:])
        self.assertEqual(parse_output("bits 4\nset 0\n", "o").header.bits, 4)

    def test_lines_that_are_no_output(self):
        for text in ("set 2 1=1", "cycle 12 -", "tlut: write failed", "luts 1 bits 2", "set 0\nbits 4"):
            with self.assertRaises(Fault, msg=text):
                parse_output(text, "o")

    def test_fault_lines(self):
        self.assertEqual(parse_fault("tlut: n.blif: B5 BadRow line 5"), FaultLine("BadRow", "n.blif", "B5", "line 5", 5, ""))
        self.assertEqual(parse_fault("tlut: n.blif: F6 Undriven model l line 4 z"), FaultLine("Undriven", "n.blif", "F6", "model l line 4 z", 4, "z"))
        self.assertEqual(parse_fault("tlut: a: b: F10 Loop 1/o 0/o"), FaultLine("Loop", "a: b", "F10", "1/o 0/o", None, "1/o 0/o"))
        self.assertEqual(parse_fault("tlut: s.scr: S2 Width line 1 width 2"), FaultLine("Width", "s.scr", "S2", "line 1 width 2", 1, "width 2"))
        self.assertEqual(parse_fault("tlut: x: read failed"), FaultLine("read failed", "x"))
        self.assertEqual(parse_fault("tlut: out of memory"), FaultLine("out of memory"))
        self.assertIsNone(parse_fault("luts 1 bits 4 depth 1"))


class AllExamples(unittest.TestCase):
    def test_scripts_and_lists_are_read(self):
        from tlutflow.parameters import read_interface
        from tlutflow.runs.script import read_script

        for netlist, params, script in (("fir", "fir", "changing"), ("matcher", "matcher", "patterns"), ("coder", "coder", "keys"), ("guard", "none", "four")):
            interface = read_interface(f"{EXAMPLES}/{netlist}/{netlist}.blif", f"{EXAMPLES}/{netlist}/{params}.par")
            self.assertTrue(read_script(f"{EXAMPLES}/{netlist}/{script}.scr", interface.regular))
