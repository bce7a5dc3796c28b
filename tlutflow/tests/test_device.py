"""From a netlist of fixed LUTs to a device."""

import unittest

from tlutflow.circuit import is_template
from tlutflow.device import WIDEST
from tlutflow.netlist import parse_library
from tlutflow.tests.helpers import MUX_PACK, MUX_TEMPLATE, InFolder, flow, needs
from tlutflow.tools import NEXTPNR_ICE40, YOSYS, find

# Two registers, of which one starts at 1, as `tlut spec` writes them.
SPEC = """.model two
.inputs a clk
.outputs y z
.latch _n1 _l0 re clk {first}
.latch _n2 _l1 re clk 0
.names a _l0 _n1
10 1
01 1
.names a _l0 _l1 _n2
111 1
000 1
.names _l0 y
1 1
.names _l1 z
1 1
.end
"""


class Devices(InFolder):
    def device(self, target: str, first: int, *more: str):
        return flow("device", self.put("two.blif", SPEC.format(first=first)), "--target", target, "--out", f"{self.folder}/made", *more)

    @needs(YOSYS)
    def test_both_inits_for_all_targets(self):
        """No gate is left that a placer refuses, whatever a register starts at."""
        for target in WIDEST:
            for first in (0, 1):
                ran = self.device(target, first, "--no-place")
                self.assertEqual((ran.returncode, ran.stderr), (0, ""), target)
                self.assertNotIn("$_", ran.stdout)
                self.assertIn({"ice40": "2 SB_DFF", "ecp5": "2 TRELLIS_FF", "xilinx": "2 FDRE"}[target], ran.stdout)

    @needs(YOSYS, NEXTPNR_ICE40)
    def test_nextpnr_places_both_inits(self):
        for first in (0, 1):
            ran = self.device("ice40", first)
            self.assertEqual((ran.returncode, ran.stderr), (0, ""))
            self.assertIn("of 1280 ICESTORM_LC", ran.stdout)

    @needs(YOSYS)
    def test_without_nextpnr(self):
        import os

        os.symlink(find(YOSYS), f"{self.folder}/yosys")
        ran = flow("device", self.put("two.blif", SPEC.format(first=1)), "--target", "ice40", "--out", self.folder, PATH=self.folder)
        self.assertIn("nextpnr (nextpnr-ice40) isn't installed, so nothing was placed", ran.stdout)

    def test_recipe_and_faults(self):
        path = self.put("two.blif", SPEC.format(first=1))
        text = flow("device", path, "--target", "ice40", "--recipe").stdout
        self.assertIn("techmap -map +/gate2lut.v -D LUT_WIDTH=1 t:$_NOT_\n", text)
        wide = self.put("wide.blif", ".model w\n.inputs a b c d e\n.outputs y\n.names a b c d e y\n11111 1\n.end\n")
        self.assert_fault(flow("device", wide, "--target", "ice40"), "y has 5 inputs, and a LUT of ice40 4: map it with K 4")
        self.assert_fault(flow("device", f"{self.folder}/no.blif", "--target", "ecp5"), "No such file")
        self.assert_fault(flow("device", path), "--target", 2)

    def test_a_template_isnt_for_a_device(self):
        """Its configuration bits are inputs, so its LUTs would be too wide, or plain gates of the device."""
        for target in WIDEST:
            self.assert_fault(flow("device", self.put("t.blif", MUX_TEMPLATE), "--target", target), "t.blif is a template")
        ran = flow("draw", self.put("spec.blif", SPEC.format(first=1)), self.put("p.ppc", MUX_PACK))
        self.assert_fault(ran, "not a template written by map: it has no configuration bits")

    def test_inputs_on_two_lines_are_no_template(self):
        """Each cover ends with the names of a line, but they aren't counted, or aren't as many as a LUT has bits."""
        for names in ("b c", "_c1 _c2", "_c0", "_c0 _c1 _c2"):
            last = names.split()[-1]
            text = f".model two\n.inputs a\n.inputs {names}\n.outputs y\n.names a {names} y\n{'1' * (len(names.split()) + 1)} 1\n.names {last} z\n1 1\n.end\n"
            self.assertFalse(is_template(parse_library(text, "two.blif")), names)


if __name__ == "__main__":
    unittest.main()
