"""Explanations of fault lines."""

import re
import unittest

from tlutflow.explanations import BY_CODE, BY_WORD
from tlutflow.netlist import parse_library
from tlutflow.refusals import refusal
from tlutflow.tests.helpers import EXAMPLES, MUX, TOP, InFolder, flow, needs
from tlutflow.tests.test_build import NEEDS_TLUT
from tlutflow.tools import ABC
from tlutflow.verilog.loops import loop_of


class Explanations(InFolder):
    def told(self, *lines: str) -> str:
        return flow("explain", given="".join(f"{line}\n" for line in lines), folder=self.folder).stdout

    def test_each_code_of_the_pages_has_one(self):
        codes = set()
        for page in ("formats", "netlists", "aiger", "certificates"):
            with open(f"{TOP}/docs/{page}.md", encoding="utf-8") as file:
                codes |= set(re.findall(r"\b([ATBFPSKCL]\d+) [A-Z][A-Za-z]+\b", file.read()))
        self.assertGreater(len(codes), 50)
        self.assertEqual(codes, set(BY_CODE))

    def test_line_of_the_input(self):
        self.put("n.blif", ".model m\n.inputs a b\n.outputs y\n.names a b y\n1 1\n.end\n")
        lines = self.told("tlut: n.blif: B5 BadRow line 5").splitlines()
        self.assertEqual(lines[:2], ["n.blif: B5 BadRow line 5", "     5 | 1 1"])
        self.assertEqual(lines[3:], [f"  cause   {BY_CODE['B5'].cause}", f"  remedy  {BY_CODE['B5'].remedy}"])

    def test_line_of_a_net(self):
        self.put("n.blif", ".model m\n.inputs a\n.outputs y\n.clock c\n.names a c y\n11 1\n.end\n")
        self.assertIn("     5 | .names a c y\n", self.told("tlut: n.blif: F9 ClockAsData c"))

    def test_cells_of_yosys(self):
        self.assertIn("dfflegalize", self.told("tlut: n.blif: F1 UnknownModel model m line 4 $_SDFFE_PP0P_"))
        self.assertIn("async2sync", self.told("tlut: n.blif: F1 UnknownModel model m line 4 $_DFF_PP0_"))
        self.assertIn("opt_clean -purge", self.told("tlut: n.blif: F6 Undriven model m line 4 z"))

    def test_lines_without_codes(self):
        text = self.told("luts 1 bits 4 depth 1", "tlut: x: read failed", "tlut: usage: run K ..", "tlut: out of memory")
        self.assertEqual(text.count("remedy"), 3)
        for word in BY_WORD:
            self.assertIn(BY_WORD[word].cause, self.told(f"tlut: x: {word}" if word == "read failed" else f"tlut: {word}"))

    def test_other_lines_are_passed_through(self):
        given = "luts 1 bits 4 depth 1\n\ntlut: x: Z9 Other\ncycle 1 -\n"
        ran = flow("explain", given=given)
        self.assertEqual((ran.returncode, ran.stdout), (0, given))
        self.assertEqual(flow("explain", given="").stdout, "")
        lines = self.told("cycle 1 -", "tlut: out of memory", "cycle 0 -").splitlines()
        self.assertEqual((lines[0], lines[1], lines[-1]), ("cycle 1 -", "out of memory", "cycle 0 -"))


class Refusals(InFolder):
    """What `tlut` refuses reaches the user with its explanation, in one line."""

    def test_line(self):
        known = BY_CODE["S2"]
        self.assertEqual(
            str(refusal("tlut: /tmp/x/n.scr: S2 Width line 1 width 3", {"/tmp/x/n.scr": "n.scr"})),
            f"n.scr: S2 Width line 1 width 3; wanted: {known.wants}; usual cause: {known.cause}; remedy: {known.remedy}",
        )
        self.assertEqual(str(refusal("another line")), "another line")
        for code in ("L3 TooManyNodes", "L4 NodeCuts node 9", "L5 TotalCuts node 9", "L6 Work"):
            self.assertIn("remedy: map it with `tlut --compact`", str(refusal(f"tlut: n.blif: {code}")))
        self.assertIn("remedy: map a part of the design", str(refusal("tlut: n.blif: L2 TooLarge")))

    def test_loops(self):
        loop = ".names a x y\n11 1\n.names y z\n1 1\n.names z a x\n11 1\n"
        model = parse_library(f".model m\n.inputs a\n.outputs y\n.names a b\n1 1\n{loop}.end\n", "n").main
        found = loop_of(model)
        self.assertEqual(sorted(found), ["x", "y", "z"])
        reads = {cover.output: cover.inputs for cover in model.covers}
        self.assertTrue(all(net in reads[after] for net, after in zip(found, found[1:] + found[:1])))
        tree = ".names a p\n1 1\n.names a p q\n11 1\n.names q p y\n11 1\n"
        self.assertEqual(loop_of(parse_library(f".model m\n.inputs a\n.outputs y\n{tree}.end\n", "n").main), [])
        chain = "".join(f".names n{place + 1} n{place}\n1 1\n" for place in range(5000))
        self.assertEqual(loop_of(parse_library(f".model m\n.inputs n5000\n.outputs n0\n{chain}.end\n", "n").main), [])

    @needs(ABC)
    @NEEDS_TLUT
    def test_of_prepare_and_build(self):
        netlist = self.put("n.blif", MUX.replace(".end", ".names y z w\n11 1\n.names w z\n1 1\n.end"))
        ran = flow("prepare", netlist, self.put("n.par", "p 0\n"), "--only", "raw", folder=self.folder)
        self.assert_fault(ran, f"flow prepare: {netlist}: F10 Loop ")
        self.assertIn(f"remedy: {BY_CODE['F10'].remedy}", ran.stderr)
        for line, code in (("cycle 1", "S2"), ("cycle 0 0 0", "S1")):
            words = ("build", f"{EXAMPLES}/fir/fir.blif", f"{EXAMPLES}/fir/fir.par", "--quick", "--out", f"{self.folder}/made", "--script", self.put("s.scr", f"{line}\n"))
            last = flow(*words).stderr.splitlines()[-1]
            self.assertIn(f"s.scr: {code} ", last)
            self.assertIn(f"remedy: {BY_CODE[code].remedy}", last)


if __name__ == "__main__":
    unittest.main()
