"""Names and digits of a design kept beside its netlist, as a template and a pack show them."""

import json
import shutil
import unittest

from tlutflow.bus import Bus
from tlutflow.buses import buses_of
from tlutflow.port_file import Ports, find_ports
from tlutflow.tests.helpers import DATA, InFolder, flow, needs
from tlutflow.tools import ICARUS, ICARUS_PLAYER

TURNED = Bus("p", ("p[3]", "p[2]", "p[1]", "p[0]"), 0, True)


class Buses(unittest.TestCase):
    def test_the_order_of_digits(self):
        ports = Ports({"p": TURNED})
        bus = buses_of(["p[0]", "p[1]", "p[2]", "p[3]", "x[0]", "x[1]"], ports)
        self.assertEqual([it.title for it in bus.values()], ["p[0:3]", "x[1:0]"])
        self.assertEqual(bus["p"].digits(1), {"p[3]": 1, "p[2]": 0, "p[1]": 0, "p[0]": 0})
        # A part of such a port has no order that could be taken for Verilog's.
        self.assertEqual(list(buses_of(["p[0]", "p[1]"], ports)), ["p[0]", "p[1]"])

    def test_signs(self):
        bus = Bus("y", ("y[0]", "y[1]", "y[2]"), 0, False, True)
        self.assertEqual(bus.number(bus.digits(-3)), -3)

    def test_names_that_are_taken(self):
        ports = Ports({}, ["count[0]", "count[1]", "a"])
        self.assertEqual(ports.register_names(3, ["a", "count[1]"]), ["count[0]", "count_reg[1]", "a_reg"])
        self.assertEqual(ports.register_names(2, []), [])


class Registers(InFolder):
    def setUp(self) -> None:
        super().setUp()
        for name in ("matcher_t.blif", "matcher.ppc"):
            shutil.copy(f"{DATA}/{name}", f"{self.folder}/{name}")
        self.files = f"{self.folder}/matcher_t.blif", f"{self.folder}/matcher.ppc"
        names = [f"{name}[{place}]" for name in ("past", "seen") for place in range(3)]
        buses = [{"name": name, "bits": [f"{name}[{it}]" for it in range(3)], "low": 0, "turned": False, "signed": False} for name in ("past", "seen")]
        self.put("matcher.ports.json", json.dumps({"ports": [], "buses": buses, "registers": names}))

    def test_draw_and_report(self):
        text = flow("draw", *self.files, "--cone", "past").stdout
        self.assertIn('"past[2]"', text)
        self.assertNotIn('"_l', text)
        self.assertNotIn("_l0", flow("report", *self.files, "--json").stdout)

    @needs(ICARUS, ICARUS_PLAYER)
    def test_hdl(self):
        text = flow("hdl", *self.files).stdout
        self.assertIn("reg \\past[0]  = ", text)
        from tlutflow.tests.helpers import EXAMPLES, example

        script = f"{EXAMPLES}/matcher/patterns.scr"
        ran = flow("hdl", *self.files, "--script", script, "--simulate", "--bits", "all", given=example("matcher/expected.txt"))
        self.assertIn("all as the run's", ran.stdout, ran.stderr)

    def test_registers_with_names_of_the_configuration(self):
        odd = ["cfg_bits", "table_0", "cfg_end_0", "hit", "cfg_chain", "wire"]
        self.put("matcher.ports.json", json.dumps({"ports": [], "buses": [], "registers": odd}))
        text = flow("hdl", *self.files).stdout
        for part in ("reg cfg_bits = ", "reg hit_reg = ", "reg \\wire  = ", "] cfg_bits_ = ", " table__0 = "):
            self.assertIn(part, text)
        self.assertIn("cfg_end___0", flow("hdl", *self.files, "--target", "xilinx", "--port", "random").stdout)

    def test_a_file_of_another_netlist(self):
        self.put("matcher.ports.json", json.dumps({"ports": [], "buses": [], "registers": ["a"]}))
        self.assertIn('"_l0"', flow("draw", *self.files).stdout)
        self.put("matcher.ports.json", "{")
        self.assert_fault(flow("draw", *self.files), "matcher.ports.json: `flow verilog` didn't write it")
        self.assertEqual(find_ports([f"{self.folder}/none.blif"], "none"), Ports())


if __name__ == "__main__":
    unittest.main()
