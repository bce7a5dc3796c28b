"""Functions that share a LUT site, what a device counts, and the source with its parameters in registers."""

import random
import unittest

from tlutflow.bus import Bus
from tlutflow.devices.cells import counted, read_cells
from tlutflow.devices.families import FAMILIES, XILINX
from tlutflow.devices.registers import HELD, held_text
from tlutflow.devices.rings import Layout
from tlutflow.devices.sites import FIXED_PAIR, REWRITABLE_PAIR, Node, pairs_of
from tlutflow.tests.helpers import DATA, MUX, InFolder, flow, mapped, mux, needs
from tlutflow.tests.test_build import NEEDS_TLUT
from tlutflow.tools import ABC, ICARUS, ICARUS_PLAYER, YOSYS, find, run
from tlutflow.verilog.hdl import Way, device_of, module_text
from tlutflow.verilog.names import names_of
from tlutflow.verilog.store import store_of

EXAMPLES = ("fir", "matcher", "coder")
# Two multiplexers of the same inputs and choice, each with the inputs of the other in the other order.
TWO_WAYS = MUX.replace("outputs y", "outputs y z").replace(".end", ".names p b a z\n11- 1\n0-1 1\n.end")


def fixed(net: str, reads: str) -> Node:
    """A LUT of constants; nets are letters."""
    return Node(frozenset(reads), (net,), FIXED_PAIR)


def rewritable(net: str, reads: str) -> Node:
    """A LUT whose bits change."""
    return Node(frozenset(reads), (net,), REWRITABLE_PAIR)


def levels(nodes: list[Node], pairs: list[tuple[int, int]]) -> int:
    """How many levels the sites have if each is behind all that drive what it reads; 0 if they are in a loop."""
    site = {place: place for place in range(len(nodes))}
    site.update((other, one) for one, other in pairs)
    driver = {node.drives[0]: site[place] for place, node in enumerate(nodes)}
    waits = {it: set() for it in site.values()}
    for place, node in enumerate(nodes):
        waits[site[place]] |= {driver[net] for net in node.reads if net in driver}
    found = 0
    while waits:
        found += 1
        ready = {it for it, others in waits.items() if not others}
        if not ready:
            return 0
        waits = {it: others - ready for it, others in waits.items() if it not in ready}
    return found


class Pairs(unittest.TestCase):
    def test_how_many_nets_a_site_takes(self):
        for one, other, wanted in (
            (rewritable("x", "abcd"), rewritable("y", "abcd"), 1),
            (rewritable("x", "abc"), rewritable("y", "bcd"), 1),
            (rewritable("x", "abc"), rewritable("y", "cde"), 0),
            (rewritable("x", "abc"), fixed("y", "cde"), 0),
            (rewritable("x", "ab"), fixed("y", "cd"), 1),
            (fixed("x", "abc"), fixed("y", "cde"), 1),
            (fixed("x", "abc"), fixed("y", "def"), 0),
            (fixed("x", "abcde"), fixed("y", "abcde"), 1),
            (rewritable("x", ""), rewritable("y", "abcd"), 1),
        ):
            self.assertEqual(len(pairs_of([one, other])), wanted, (one, other))

    def test_no_loop_is_closed(self):
        # y reads x, so the two can't share a site.
        for keeps_depth in (True, False):
            self.assertEqual(pairs_of([fixed("x", "ab"), fixed("y", "xa")], keeps_depth), [])
        # x and y alone could, and z and w too, but x drives z and w drives y: both pairs together would be a loop.
        nodes = [fixed("x", "ab"), fixed("y", "abw"), fixed("z", "cdx"), fixed("w", "cd")]
        for keeps_depth in (True, False):
            self.assertEqual(len(pairs_of(nodes, keeps_depth)), 1)

    def test_no_path_gets_longer(self):
        # x drives y and z drives w, and the sites xw and none else would be three levels.
        nodes = [fixed("x", "ab"), fixed("y", "xcdef"), fixed("w", "abz"), fixed("z", "ghijk")]
        self.assertEqual(pairs_of(nodes), [])
        self.assertEqual(pairs_of(nodes, False), [(0, 2)])

    def test_random_circuits(self):
        """Pairs have no cell in common, read few enough nets, and leave an order of all sites."""
        draw = random.Random(1)
        for _ in range(60):
            nodes: list[Node] = []
            for place in range(40):
                nets = [f"i{it}" for it in range(8)] + [node.drives[0] for node in nodes]
                make = draw.choice((fixed, rewritable))
                made = make(f"n{place}", "")
                nodes.append(Node(frozenset(draw.sample(nets, draw.randrange(1, 5))), made.drives, made.most))
            for keeps_depth in (True, False):
                pairs = pairs_of(nodes, keeps_depth)
                self.assertGreater(len(pairs), 2)
                self.assertEqual(len({it for pair in pairs for it in pair}), 2 * len(pairs))
                for one, other in pairs:
                    self.assertLessEqual(len(nodes[one].reads | nodes[other].reads), min(nodes[one].most, nodes[other].most))
                self.assertGreater(levels(nodes, pairs), 0)
                if keeps_depth:
                    self.assertEqual(levels(nodes, pairs), levels(nodes, []))

    def test_the_module_has_the_sites_that_are_counted(self):
        for name in EXAMPLES:
            circuit = mapped(name)
            names = names_of(circuit, "m")
            for is_paired in (True, False):
                text = module_text(circuit, names, device_of(circuit, names, Way("xilinx", "chain", pairs=is_paired)))
                sites = sum(text.count(word) for word in ("CFGLUT5 #(", "LUT6_2 #(", "    localparam"))
                self.assertEqual(sites, Layout(circuit, store_of(circuit.pack, "changing"), is_paired).sites, name)

    def test_slices(self):
        """A chain has one enable, so four CFGLUT5 fill a slice; with one enable each they take a slice each."""
        circuit = mapped("fir")
        layout = Layout(circuit, store_of(circuit.pack, "changing"), False)
        self.assertEqual([layout.slices(it) for it in ([27], [1] * 27, [4] * 7)], [7, 27, 7])

    def test_a_flip_flop_device_counts_choices(self):
        """The mux has two changing bits that are complements: one cell with its copy, and a choice among one cell and two leaves."""
        self.assertEqual(FAMILIES["ice40"].cost(mux()), 2 + 1)


class Synthesised(InFolder):
    def cells(self, text: str, command: str = XILINX):
        path = self.put("m.v", text)
        ran = run([find(YOSYS) or "", "-q", "-p", f"read_verilog {path}; {command} -top m; write_json {self.folder}/m.json"])
        self.assertEqual((ran.returncode, ran.stderr), (0, ""))
        return counted(read_cells(f"{self.folder}/m.json", "m"), command == XILINX)

    @needs(YOSYS)
    def test_cells_are_counted(self):
        # Two functions of the same five inputs share a site, a third one of six has its own, and the flip-flop none.
        text = "module m (input clk, input [5:0] a, output x, y, output reg z = 0); assign x = ^a[4:0]; assign y = &a[4:0]; always @(posedge clk) z <= ^a; endmodule\n"
        found = self.cells(text)
        self.assertEqual((found.luts, found.sites, found.carries, found.flip_flops, found.depth), (3, 2, 0, 1, 1))
        found = self.cells("module m (input [7:0] a, b, output [7:0] y); assign y = a + b; endmodule\n")
        self.assertEqual((found.luts, found.carries, found.depth), (8, 2, 1))
        text = "module m (input clk, input [3:0] a, output reg y = 0); always @(posedge clk) y <= ^a; endmodule\n"
        found = self.cells(text, "synth_ice40 -flatten")
        self.assertEqual((found.luts, found.sites, found.flip_flops), (1, 1, 1))

    @needs(ICARUS, ICARUS_PLAYER)
    def test_registers_hold_and_load_parameters(self):
        """They start at the values of the start, and after as many periods as they are the chain has loaded others."""
        ports = {"x": ("input", Bus("x", ("x",))), "p": ("input", Bus("p", ("p[0]", "p[1]", "p[2]"), 0)), "y": ("output", Bus("y", ("y[0]", "y[1]", "y[2]"), 0))}
        text = held_text("top", ports, {"p[0]": 1, "p[1]": 1, "p[2]": 0})
        top = "module top (input x, input [2:0] p, output [2:0] y); assign y = x ? p : 0; endmodule\n"
        bench = f"""module bench; reg clk = 0, we = 1, in = 0; wire [2:0] y; integer it; reg [2:0] sent = 3'b100;
            {HELD} held (.x(1'b1), .y(y), .cfg_clk(clk), .cfg_we(we), .cfg_in(in));
            initial begin #1 $display("%b", y); for (it = 0; it < 3; it = it + 1) begin in = sent[it]; #1 clk = 1; #1 clk = 0; end $display("%b", y); end endmodule\n"""
        out = f"{self.folder}/b.vvp"
        self.assertEqual(run([find(ICARUS) or "", "-o", out, self.put("b.v", top + text + bench)]).stderr, "")
        self.assertEqual(run([find(ICARUS_PLAYER) or "", out]).stdout, "011\n100\n")


class Devices(InFolder):
    def test_hdl_says_what_a_device_chose(self):
        files = f"{DATA}/fir_t.blif", f"{DATA}/fir.ppc"
        ran = flow("hdl", *files, "--device", "xilinx7")
        self.assertEqual(ran.stdout, flow("hdl", *files, "--target", "xilinx", "--port", "chain").stdout)
        self.assertIn("flow hdl: device xilinx7: --target xilinx --port chain --bits changing; ", ran.stderr)
        ran = flow("hdl", *files, "--device", "xilinx7", "--port", "random")
        self.assertEqual(ran.stdout, flow("hdl", *files, "--target", "xilinx", "--port", "random", "--word", "4").stdout)
        ran = flow("hdl", *files, "--device", "ice40")
        self.assertEqual(ran.stdout, flow("hdl", *files, "--bits", "distinct").stdout)
        self.assertEqual(flow("hdl", *files, "--device", "ice40", "--bits", "changing").stdout, flow("hdl", *files).stdout)

    @needs(ABC)
    @NEEDS_TLUT
    def test_prepare_chooses_by_the_count(self):
        """Two multiplexers with one parameter are two LUTs of two leaves, which share a site at each K."""
        netlist = self.put("n.blif", TWO_WAYS)
        ran = flow("prepare", netlist, self.put("n.par", "p 0\n"), "--device", "xilinx7", "--only", "raw", "--out", f"{self.folder}/m.blif")
        self.assertEqual(ran.returncode, 0, ran.stderr)
        self.assertIn("device xilinx7: K 4, tlut, preparation as read for sites (K 4 1 LUT site, K 5 1 LUT site, K 6 1 LUT site); ", ran.stdout)
        ran = flow("prepare", netlist, f"{self.folder}/n.par", "--device", "xilinx7", "--k", "6", "--rule", "compact", "--only", "raw", "--out", f"{self.folder}/m.blif")
        self.assertIn("device xilinx7: K 6, tlut --compact, preparation as read for sites (K 6 1 LUT site); ", ran.stdout)

    @needs(YOSYS, ICARUS, ICARUS_PLAYER)
    @NEEDS_TLUT
    def test_build_counts_beside_registers(self):
        """One parameter in a register, and a LUT that reads it; or a bit in a flip-flop with its copy, and a LUT that reads it. What Yosys
        makes of the circuit plays a script too."""
        files = self.put("n.blif", MUX), self.put("n.par", "p 0\n")
        script = self.put("n.scr", "cycle a=1 b=0\nset p=1\ncycle a=1 b=0\n")
        for device in ("ice40", "ecp5"):
            ran = flow("build", *files, "--quick", "--device", device, "--script", script, "--out", f"{self.folder}/{device}")
            self.assertEqual(ran.returncode, 0, ran.stderr)
            self.assertIn("1 LUT and 2 flip-flops; with its parameters in registers the source has 1 LUT, 0 carries and 1 flip-flop: registers are cheaper", ran.stdout)
            self.assertIn("(Icarus Verilog: 2 cycles of the netlist, all outputs as the run's)", ran.stdout)
            with open(f"{self.folder}/{device}/index.html", encoding="utf-8") as file:
                self.assertIn(f"registers, synth_{device} -flatten", file.read())

    @needs(YOSYS, ICARUS, ICARUS_PLAYER)
    @NEEDS_TLUT
    def test_build_plays_the_synthesised_netlist(self):
        """Two multiplexers whose choice is the parameter share one CFGLUT5. As a register the parameter takes a flip-flop, and the
        multiplexers are two LUTs of the same three nets. A script of values is played on what Yosys makes of the circuit too."""
        files, out = (self.put("n.blif", TWO_WAYS), self.put("n.par", "p 0\n")), f"{self.folder}/out"
        script = self.put("n.scr", "cycle a=1 b=0\nset p=1\ncycle a=1 b=0\ncycle a=0 b=1\n")
        ran = flow("build", *files, "--quick", "--device", "xilinx7", "--script", script, "--out", out)
        self.assertEqual(ran.returncode, 0, ran.stderr)
        self.assertIn("the source has 2 LUTs, 1 site if two LUTs share one where they may, 0 carries and 1 flip-flop", ran.stdout)
        played = "the netlist that Yosys synthesised for the device plays the script as the run did (Icarus Verilog: 3 cycles"
        self.assertIn(f"checked: {played} of the netlist, all outputs as the run's)", ran.stdout)
        with open(f"{out}/n_device.v", encoding="utf-8") as file:
            self.assertEqual(file.read().count("CFGLUT5"), 1)

    def test_faults(self):
        files = f"{DATA}/fir_t.blif", f"{DATA}/fir.ppc"
        self.assert_fault(flow("hdl", *files, "--device", "spartan"), "invalid choice", 2)
        self.assert_fault(flow("prepare", *files, "--for", "sites"), "--for sites needs --device")


if __name__ == "__main__":
    unittest.main()
