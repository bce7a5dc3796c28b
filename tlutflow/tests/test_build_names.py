"""Names that aren't identifiers of Verilog: of a design that is built, of its ports and registers, and of signals in a waveform."""

import os
import unittest

from tlutflow.runs.waveform import word_of
from tlutflow.tests.helpers import MUX, InFolder, flow, needs
from tlutflow.tests.test_build import NEEDS_TLUT
from tlutflow.tools import ICARUS, ICARUS_PLAYER, YOSYS
from tlutflow.verilog.names import identifier

# Names that a netlist may have, and no escaped identifier, or none that every reader takes.
ODD = ("ä", "a`b", "*x", "(*y", 'a"b', "a//b", "a/*b", "x*)", "`define", "$end")


class Names(InFolder):
    def build(self, *words: str, names: tuple = ("a", "b")) -> str:
        """Builds a design with a script whole, and returns what it prints."""
        script = self.put("n.scr", f"cycle {names[0]}=1 {names[1]}=0\nset p=1\ncycle\n")
        ran = flow("build", *words, "--quick", "--k", "4", "--script", script, "--out", "out", folder=self.folder)
        self.assertEqual(ran.returncode, 0, ran.stderr)
        self.assertIn("out/index.html: the report", ran.stdout)
        return ran.stdout

    @needs(ICARUS, ICARUS_PLAYER)
    @NEEDS_TLUT
    def test_netlists(self):
        for stem, module in (("9sym", "_9sym"), ("my-design.a b", "my_design_a_b"), ('ä"', "__")):
            shown = self.build(self.put(f"{stem}.blif", MUX), self.put(f"{stem}.par", "p 0\n"))
            self.assertIn(f"{stem}: 1 LUT, depth 1, 4 bits at K 4\n", shown)
            self.assertIn("checked: the Verilog plays the script as the run did (Icarus Verilog: 4 lines", shown)
            self.assertTrue(os.path.getsize(f"{self.folder}/out/{module}_mapped.v"), stem)

    @needs(YOSYS, ICARUS, ICARUS_PLAYER)
    @NEEDS_TLUT
    def test_a_top_module_with_an_escaped_name_for_a_device(self):
        self.put("top.v", "module \\my-top (input a, b, p, output y); assign y = p ? a : b; endmodule\n")
        shown = self.build("top.v", "--top", "\\my-top", "--param", "p=0", "--device", "xilinx7")
        self.assertIn("checked: the netlist that Yosys synthesised for the device plays the script as the run did", shown)
        self.assertTrue(os.path.getsize(f"{self.folder}/out/my_top_mapped.v"))

    @needs(ICARUS, ICARUS_PLAYER)
    @NEEDS_TLUT
    def test_ports_and_registers(self):
        """A netlist of an exclusive or of all inputs but the parameter, whose registers have odd names too."""
        lines = [f".model m\n.inputs {' '.join(ODD)} p c\n.outputs y `y\n.latch p ö re c 0\n.latch y `ö re c 0\n.names ö `ö `y\n11 1\n"]
        nets = ["p", *(f"n{place}" for place in range(len(ODD))), "y"]
        lines += [f".names {left} {right} {made}\n01 1\n10 1\n" for left, right, made in zip(nets, ODD, [*nets[1:-2], "y"])]
        self.put("m.blif", "".join([*lines, ".end\n"]))
        shown = self.build("m.blif", self.put("m.par", "p 0\n"), names=("ä", "a`b"))
        self.assertIn("checked: the Verilog plays the script as the run did (Icarus Verilog: 4 lines", shown)
        with open(f"{self.folder}/out/m.vcd", encoding="utf-8") as file:
            self.assertIn(" \\$end $end\n", file.read())


class Identifiers(unittest.TestCase):
    def test_no_two_names_have_one(self):
        names = [*ODD, "a%60b", "a%2560b", "%", "%g0", "a%b", "x", "wire", "\udcff", "a*b", "a(b"]
        made = [identifier(name) for name in names]
        self.assertEqual(len(set(made)), len(names))
        self.assertEqual(made[:3], ["\\%C3%A4 ", "\\a%60b ", "\\%2Ax "])
        self.assertEqual([identifier(it) for it in ("x", "wire", "%", "a*b", "a[1]", "\udcff")], ["x", "\\wire ", "\\% ", "\\a*b ", "\\a[1] ", "\\%FF "])

    def test_words_of_a_waveform(self):
        self.assertEqual([word_of(it) for it in ("$end", "$upscope", "$ends", "ä", "x")], ["\\$end", "\\$upscope", "$ends", "_", "x"])
