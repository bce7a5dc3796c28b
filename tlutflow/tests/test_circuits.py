"""Mapped circuits, what a report tells of them, and their drawings."""

import json
import re
import os
import unittest

from tlutflow.circuit import circuit_of
from tlutflow.faults import Fault
from tlutflow.netlist import parse_library
from tlutflow.pack import parse_pack
from tlutflow.parameters import read_interface
from tlutflow.reports.drawing import drawing
from tlutflow.reports.statistics import statistics
from tlutflow.runs.output import parse_output
from tlutflow.runs.script import bits_text, read_script
from tlutflow.tests.helpers import DATA, EXAMPLES, MUX_PACK, MUX_TEMPLATE, InFolder, cycle_of, example, flow, mapped, mux, needs
from tlutflow.tools import DOT

RUNS = (("fir", "ten", "expected"), ("fir", "changing", "expected_changing"), ("matcher", "patterns", "expected"), ("coder", "keys", "expected"))


class Circuits(unittest.TestCase):
    def test_mux(self):
        circuit = mux()
        self.assertEqual((circuit.inputs, circuit.clock, circuit.roots), (["a", "b"], None, {"y": "_n13"}))
        self.assertEqual([(it.net, it.leaves, list(it.addresses)) for it in circuit.luts], [("_n13", ["a", "b"], [0, 1, 2, 3])])
        self.assertEqual((circuit.depth, circuit.longest_path(), circuit.cone(["_n13"])), (1, ["a", "_n13", "y"], {"a", "b", "_n13"}))

    def test_tables_play_the_runs_of_the_examples(self):
        """Tables, leaves, addresses and latches are those of the runs: with the runs' writes they have the runs' cycles."""
        for name, script, printed in RUNS:
            circuit = mapped(name)
            interface = read_interface(f"{EXAMPLES}/{name}/{name}.blif", f"{EXAMPLES}/{name}/{name}.par")
            self.assertEqual((circuit.inputs, circuit.clock), (interface.regular, "clk"))
            output = parse_output(example(f"{name}/{printed}.txt"), name)
            self.assertEqual((len(circuit.luts), len(circuit.pack.bits), circuit.depth), (output.header.tables, output.header.bits, output.header.depth))
            bits = circuit.pack.configuration()
            states = bits_text([latch.start for latch in circuit.latches])
            for event, line in zip(read_script(f"{EXAMPLES}/{name}/{script}.scr", interface.regular), output.events):
                for address, bit in line.writes:
                    bits[address] = bit
                if event.word == "cycle":
                    inputs = "".join(map(str, event.values.values()))
                    self.assertEqual(cycle_of(circuit, bits, inputs, states), (line.outputs, line.states))
                    states = line.states
                elif event.word == "image":
                    self.assertEqual(line.text, f"image {bits_text(bits)}")

    def test_files_that_dont_belong_together(self):
        for template, pack in ((MUX_TEMPLATE, "54505043 0002 00 00 01 00"), (MUX_TEMPLATE.replace("_c3\n", "\n"), MUX_PACK.hex())):
            with self.assertRaises(Fault):
                circuit_of(parse_library(template, "t"), parse_pack(bytes.fromhex(pack), "p"), "p")


class Reports(InFolder):
    def test_counts_of_the_matcher(self):
        """README has the matcher: its pattern and mask are in the 16 bits of one table of four inputs, and three tables count."""
        found = statistics(mapped("matcher"))
        self.assertEqual((found.tables, found.bits, found.depth, found.parameters, found.latches), (4, 44, 2, 8, 6))
        self.assertEqual(found.tables_by_kind, {"constant": 3, "one parameter": 0, "several parameters": 1})
        self.assertEqual(found.bits_by_kind, {"constant": 28, "one parameter": 0, "several parameters": 16})
        self.assertEqual({(it.bits, it.tables) for it in found.reach.values()}, {(16, 1)})

    def test_counts_of_the_coder(self):
        """README has the coder: the key is in the bits of four tables that mix and of four that replace. Key 0 needs no table that mixes."""
        found = statistics(mapped("coder"))
        self.assertEqual((found.tables_by_leaves, found.tables_by_depth), ({2: 4, 4: 4}, {1: 4, 2: 4}))
        self.assertEqual((found.reach["key[7]"].bits, found.reach["key[7]"].tables), (16, 1))
        self.assertEqual(sum(found.bits_by_kind.values()), 80)

    def test_text_and_functions(self):
        template, pack = self.put("t.blif", MUX_TEMPLATE), self.put("p.ppc", MUX_PACK)
        lines = flow("report", template, pack, "--bits").stdout.splitlines()
        self.assertEqual(lines[:2], ["mux: 2 inputs, 1 output, 0 latches, 1 parameter", "1 LUT at depth 1, 4 configuration bits, 0 AND nodes in the pack"])
        self.assertIn("critical path: a > _n13 > y", lines)
        self.assertEqual(lines[-5:], ["LUT _n13: a, b", "  0  00  0", "  1  10  p", "  2  01  !p", "  3  11  1"])
        self.assert_fault(flow("report", template, pack, "--bits", "--table", "x"), "no LUT of this net")
        matcher = flow("report", f"{DATA}/matcher_t.blif", f"{DATA}/matcher.ppc").stdout.splitlines()
        self.assertEqual([line.split() for line in matcher if " each " in line][0], ["pattern[0]", "to", "pattern[3],", "each", "16", "1"])

    def test_json(self):
        template, pack = self.put("t.blif", MUX_TEMPLATE), self.put("p.ppc", MUX_PACK)
        found = json.loads(flow("report", template, pack, "--json").stdout)
        self.assertEqual((found["tables"], found["bits"], found["reach"]), (1, 4, {"p": {"bits": 2, "tables": 1}}))
        self.assertEqual(found["table_list"][0]["functions"], ["0", "p", "!p", "1"])
        self.assertEqual((found["output_roots"], found["parameter_values"]), ({"y": "_n13"}, {"p": 0}))

    def test_a_circuit_without_tables(self):
        template = self.put("t.blif", ".model w\n.inputs a\n.outputs a\n.end\n")
        pack = self.put("p.ppc", bytes.fromhex("54505043 0002 00 00 00"))
        ran = flow("report", template, pack, "--bits")
        self.assertEqual((ran.returncode, ran.stdout.splitlines()[-1]), (0, "no LUTs"), ran.stderr)


class Drawings(InFolder):
    def test_mux(self):
        text = drawing(mux())
        for part in ('"a" -> "_n13"', '"b" -> "_n13"', '"_n13" -> "output y"', 'label="_n13\\nbits 0..3\\np"'):
            self.assertIn(part, text)

    def test_marks(self):
        text = drawing(mapped("matcher"))
        lines = {re.match(r'\s*"([^"]+)"( -> "([^"]+)")?', line).group(1, 3): line for line in text.splitlines() if re.match(r'\s*"', line)}
        self.assertIn("#ffd08a", lines["_n68", None])
        self.assertIn("#e8e8e8", lines["_n75", None])
        self.assertIn("#d01c1c", lines["d", "_n68"])
        self.assertIn("style=dashed", lines["_n75", "_l0"])
        self.assertNotIn("#d01c1c", lines["_l3", "_n68"])

    def test_cone(self):
        files = f"{DATA}/matcher_t.blif", f"{DATA}/matcher.ppc"
        text = flow("draw", *files, "--cone", "hit").stdout
        self.assertIn('"_n68" -> "output hit"', text)
        self.assertNotIn("_n91", text)
        # The longest path is that of the cone, and ends at its output.
        self.assertRegex(text, '"_n68" -> "output hit" .*#d01c1c')
        self.assertIn('"_n91"', flow("draw", *files, "--cone", "_l2").stdout)
        self.assert_fault(flow("draw", *files, "--cone", "no"), "it isn't an output, register or LUT")
        # A bus is all of its nets, of outputs or of registers.
        text = flow("draw", *files, "--cone", "count").stdout
        self.assertIn('"output count[2]"', text)
        self.assertIn('"output count[0]"', text)

    def test_too_many_tables_are_not_drawn(self):
        many = range(301)
        tables = "".join(f".names a _c{2 * n} _c{2 * n + 1} _n{n}\n01- 1\n1-1 1\n" for n in many)
        rooms = "".join(f".inputs _c{2 * n} _c{2 * n + 1}\n" for n in many)
        wires = "".join(f".names _n{n} y{n}\n1 1\n" for n in many)
        template = f".model big\n.inputs a\n{rooms}.outputs {' '.join(f'y{n}' for n in many)}\n{tables}{wires}.end\n"
        pack = bytes.fromhex("54505043 0002 01 01 70 00 00") + bytes([602 & 127 | 128, 602 >> 7]) + bytes([2, 3] * 301)
        paths = self.put("t.blif", template), self.put("p.ppc", pack)
        ran = flow("draw", *paths, "--out", f"{self.folder}/x.dot")
        self.assert_fault(ran, "301 LUTs are too many to read, so nothing was drawn: --cone NET draws")
        self.assertFalse(os.path.exists(f"{self.folder}/x.dot"))
        self.assertIn('"_n300"', flow("draw", *paths, "--all").stdout)
        self.assertNotIn('"_n300"', flow("draw", *paths, "--cone", "y7").stdout)

    @needs(DOT)
    def test_picture(self):
        out = f"{self.folder}/m.svg"
        ran = flow("draw", f"{DATA}/matcher_t.blif", f"{DATA}/matcher.ppc", "--out", out)
        self.assertEqual(ran.returncode, 0, ran.stderr)
        with open(out, encoding="utf-8") as file:
            self.assertIn("<svg", file.read())

    def test_without_graphviz(self):
        ran = flow("draw", f"{DATA}/matcher_t.blif", f"{DATA}/matcher.ppc", "--out", f"{self.folder}/m.svg", PATH=self.folder)
        self.assert_fault(ran, "Graphviz (dot) isn't on the PATH")
