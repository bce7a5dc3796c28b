"""Mapped circuits in Verilog, and their simulation."""

import unittest

from tlutflow.circuit import circuit_of
from tlutflow.netlist import parse_library
from tlutflow.pack import parse_pack
from tlutflow.tests.helpers import DATA, EXAMPLES, MUX_PACK, MUX_TEMPLATE, InFolder, cycle_of, example, flow, mapped, mux, needs, yosys_share
from tlutflow.tools import ICARUS, ICARUS_PLAYER, VERILATOR, YOSYS, find, run
from tlutflow.verilog.hdl import PORTS, TARGETS, Way, device_of, module_text
from tlutflow.verilog.names import names_of
from tlutflow.verilog.tables import binary

# The examples whose templates are in data/, with a script each and what `run` prints for it.
RUNS = (("fir", "ten", "expected"), ("fir", "changing", "expected_changing"), ("matcher", "patterns", "expected"), ("coder", "keys", "expected"))
# Names that Verilog doesn't take as they are: a keyword, one with a dot, a bus with an escaped name, and an output that is an input.
ODD = """.model m
.inputs end a.b v-[0] v-[1] cfg_we pass table_0 cfg_step c
.inputs __c0 __c1
.outputs y pass
.latch __n9 __l0 re c 1
.names end __c0 __c1 __n9
01- 1
1-1 1
.names __l0 y
1 1
.end
"""


# Targets, ports and which bits can be written. The upsets of the examples flip constant bits, so all bits have to be there.
WAYS = [(target, port) for target in TARGETS for port in PORTS]


def device(circuit, names, target="generic", port="chain", bits="changing"):
    return device_of(circuit, names, Way(target, port, bits))


def cycle_line(circuit, inputs):
    """The line of a first cycle."""
    outputs, states = cycle_of(circuit, circuit.pack.configuration(), inputs, "".join(str(it.start) for it in circuit.latches))
    return f"cycle {outputs} {states}"


class Texts(unittest.TestCase):
    def test_tables_of_the_mux(self):
        circuit = mux()
        names = names_of(circuit, "mux_mapped")
        text = module_text(circuit, names, device(circuit, names))
        self.assertIn("module mux_mapped (\n    input a,\n    input b,\n    output y,", text)
        # The list has p = 0, and the bits 0, p, not p and 1 are 0, 0, 1, 1 from address 0 on. Two of them have cells, that of p first.
        self.assertIn("reg [1:0] cfg_bits = 2'b10;", text)
        self.assertIn("wire [3:0] table_0 = {1'b1, cfg_bits[1], cfg_bits[0], 1'b0};\n    assign _n13 = table_0[{b, a}];", text)
        self.assertIn("assign y = _n13;", text)
        shared = module_text(circuit, names, device(circuit, names, bits="distinct"))
        self.assertIn("wire [3:0] table_0 = {1'b1, ~cfg_bits[0], cfg_bits[0], 1'b0};", shared)

    def test_constant_tables_are_functions(self):
        """The goal: as many cells as bits that change, and nothing else of the configuration."""
        circuit = mapped("fir")
        names = names_of(circuit, "f")
        changing = sum(literal > 1 for literal in circuit.pack.bits)
        for port in PORTS:
            text = module_text(circuit, names, device(circuit, names, port=port))
            self.assertIn(f"reg [{changing - 1}:0] cfg_bits", text)
            self.assertEqual(text.count("    localparam"), 37)
        text = module_text(circuit, names, device_of(circuit, names, Way("xilinx", "random", pairs=False)))
        self.assertEqual((text.count("CFGLUT5 #("), text.count("    localparam")), (27, 37))

    def test_long_numbers(self):
        """They are in parts, the highest first, since Icarus Verilog reads no number of 16,384 digits."""
        bits = [1, *[0] * 8191, 1, 0]
        self.assertEqual(binary(bits), f"{{4096'b01{'0' * 4094}, 4096'b{'0' * 4096}, 2'b01}}")
        self.assertEqual(binary(bits[:3]), "3'b001")

    def test_vectors_and_registers(self):
        text = flow("hdl", f"{DATA}/fir_t.blif", f"{DATA}/fir.ppc", "--module", "f", "--port", "random").stdout
        for part in ("module f (\n    input clk,\n    input [2:0] x,\n    output [5:0] y,", "input [6:0] cfg_addr", "reg _l0 = 1'b0;", "_l0 <= x[0];"):
            self.assertIn(part, text)

    def test_odd_names(self):
        circuit = circuit_of(parse_library(ODD, "t"), parse_pack(bytes.fromhex("54505043 0002 01 01 70 01 00 02 03 02"), "p"), "p")
        names = names_of(circuit, "m")
        declared = [port.declaration for port in (*names.inputs, *names.outputs)]
        self.assertEqual(declared, ["input \\end ", "input \\a.b ", "input [1:0] \\v- ", "input cfg_we", "input pass", "input table_0", "input cfg_step", "output y", "output pass_out"])
        self.assertEqual((names.nets["v-[1]"], names.output_bits["pass"], names.config["we"], names.clock), ("\\v- [1]", "pass_out", "cfg_we_", "c"))


class Simulations(InFolder):
    def simulate(self, name: str, script: str, printed: str, *more: str):
        words = ("hdl", f"{DATA}/{name}_t.blif", f"{DATA}/{name}.ppc", *more, "--script", f"{EXAMPLES}/{name}/{script}.scr", "--simulate")
        return flow(*words, given=printed)

    @needs(ICARUS, ICARUS_PLAYER)
    def test_examples(self):
        for name, script, printed in RUNS:
            text = example(f"{name}/{printed}.txt")
            for target, port in WAYS:
                bits = ("--bits", "all") if "upset" in text else ()
                ran = self.simulate(name, script, text, "--target", target, "--port", port, *bits)
                self.assertEqual(ran.stdout, f"{text.count(chr(10))} lines of the simulation, all as the run's\n", f"{name} {target} {port} {ran.stderr}")

    @needs(ICARUS, ICARUS_PLAYER)
    def test_shared_cells_regions_and_words(self):
        # Up to the first upset, which hits a bit that shares its cell.
        text = example("coder/expected.txt").split("upset")[0]
        script = self.put("s.scr", example("coder/keys.scr").split("upset")[0])
        by_word = [("--port", "random", "--word", size, *more) for size in ("3", "8", "32") for more in ((), ("--bits", "distinct"))]
        for words in (("--bits", "distinct"), ("--bits", "distinct", "--port", "random"), ("--regions", "3"), ("--regions", "64"), *by_word):
            ran = flow("hdl", f"{DATA}/coder_t.blif", f"{DATA}/coder.ppc", *words, "--script", script, "--simulate", given=text)
            self.assertEqual(ran.stdout, f"{text.count(chr(10))} lines of the simulation, all as the run's\n", f"{words} {ran.stderr}")

    @needs(ICARUS, ICARUS_PLAYER)
    def test_groups_of_rings_and_sites_of_one_lut(self):
        """Rings of 32 and of 64 bits in a group of four, and no pairs."""
        for name, script, printed in RUNS:
            text = example(f"{name}/{printed}.txt").split("upset")[0]
            path = self.put("s.scr", example(f"{name}/{script}.scr").split("upset")[0])
            for words in (("random", "--word", "4"), ("random", "--word", "32"), ("random", "--word", "4", "--no-pairs"), ("random", "--no-pairs"), ("chain", "--no-pairs")):
                ran = flow("hdl", f"{DATA}/{name}_t.blif", f"{DATA}/{name}.ppc", "--target", "xilinx", "--port", *words, "--script", path, "--simulate", given=text)
                self.assertEqual(ran.stdout, f"{text.count(chr(10))} lines of the simulation, all as the run's\n", f"{name} {words} {ran.stderr}")

    @needs(ICARUS, ICARUS_PLAYER)
    def test_an_image_before_all_else(self):
        """The bits are there before the first event."""
        words = ("--script", self.put("s.scr", "image\ncycle 110\n"), "--simulate")
        text = example("fir/expected.txt").splitlines()
        bits = "".join(map(str, mapped("fir").pack.configuration()))
        given = f"{text[0]}\nimage {bits}\n{cycle_line(mapped('fir'), '110')}\n"
        for target, port in WAYS:
            ran = flow("hdl", f"{DATA}/fir_t.blif", f"{DATA}/fir.ppc", "--target", target, "--port", port, *words, given=given)
            self.assertEqual(ran.stdout, "3 lines of the simulation, all as the run's\n", f"{target} {port} {ran.stderr}")

    @needs(ICARUS, ICARUS_PLAYER)
    def test_mux_with_all_events(self):
        files = self.put("t.blif", MUX_TEMPLATE), self.put("p.ppc", MUX_PACK)
        words = ("hdl", *files, "--script", f"{EXAMPLES}/mux/events.scr", "--simulate")
        for port, first in (("random", ["write 1 1", "write 2 0"]), ("chain", ["load 0101"])):
            ran = flow(*words, "--out", f"{self.folder}/sim", "--bits", "all", "--port", port, given=example("mux/expected.txt"))
            self.assertEqual(ran.stdout, "13 lines of the simulation, all as the run's\n", ran.stderr)
            with open(f"{self.folder}/sim/mux_mapped.events", encoding="utf-8") as file:
                self.assertEqual(file.read().splitlines()[: 3 + len(first)], ["cycle 10", "cycle 01", *first, "set 2 1=1 2=0"])
        self.assert_fault(flow(*words, given=example("mux/expected.txt")), "bit 3 depends on no parameter, so it is constant in this circuit; with --bits all it can be written")

    @needs(ICARUS, ICARUS_PLAYER)
    def test_output_that_ends_early_is_no_pass(self):
        for lines, part in ((3, "the output ends at event 2 of 16"), (0, "the output ends at event 0 of 16")):
            text = "".join(example("fir/expected_changing.txt").splitlines(True)[:lines])
            self.assert_fault(self.simulate("fir", "changing", text), part)

    @needs(ICARUS, ICARUS_PLAYER)
    def test_odd_names(self):
        files = self.put("t.blif", ODD), self.put("p.ppc", bytes.fromhex("54505043 0002 01 01 70 01 00 02 03 02"))
        script = self.put("s.scr", "cycle 00000100\ncycle 10000000\ncycle 00000000\nset p=0\ncycle 10000100\ncycle 00000011\n")
        # Bit 0 is not p, bit 1 is p, so with p = 1 the register keeps `end`, and with p = 0 its complement. It starts at 1.
        printed = "luts 1 bits 2 depth 1\ncycle 11 0\ncycle 00 1\ncycle 10 0\nset 2 0=1 1=0\ncycle 01 0\ncycle 00 1\n"
        for target, port in WAYS:
            ran = flow("hdl", *files, "--target", target, "--port", port, "--script", script, "--simulate", given=printed)
            self.assertEqual(ran.stdout, "7 lines of the simulation, all as the run's\n", ran.stderr)

    @needs(ICARUS, ICARUS_PLAYER)
    def test_differences_are_told(self):
        text = example("fir/expected_changing.txt")
        for spoilt in (text.replace("cycle 101011", "cycle 001011"), text.replace(" 147=1", " 146=1"), text.replace("depth 5", "depth 4")):
            self.assertNotEqual(spoilt, text)
            for target, port in WAYS:
                self.assert_fault(self.simulate("fir", "changing", spoilt, "--target", target, "--port", port, "--bits", "all"), "of the simulation is `")

    @needs(YOSYS, ICARUS, ICARUS_PLAYER)
    def test_synthesised_netlists_are_played(self):
        """The bench uses the ports alone, so it plays what Yosys makes of the circuit."""
        text, share = example("coder/expected.txt"), yosys_share()
        cells = {"generic": ("synth_ice40", f"{share}/ice40/cells_sim.v"), "xilinx": ("synth_xilinx -noiopad -noclkbuf", f"{share}/xilinx/cells_sim.v")}
        for target, port, *word in (*WAYS, ("generic", "random", "--word", "8"), ("xilinx", "random", "--word", "4")):
            words, made = ("--target", target, "--port", port, *word), f"{self.folder}/made.v"
            path = self.put("m.v", flow("hdl", f"{DATA}/coder_t.blif", f"{DATA}/coder.ppc", *words).stdout)
            command, library = cells[target]
            ran = run([find(YOSYS) or "", "-q", "-p", f"read_verilog {path}; {command} -top coder_mapped -flatten; write_verilog -noattr {made}"])
            self.assertEqual((ran.returncode, ran.stderr), (0, ""))
            ran = self.simulate("coder", "keys", text, *words, "--netlist", made, "--netlist", library)
            cycles = sum(line.startswith("cycle") for line in text.splitlines())
            self.assertEqual(ran.stdout, f"{cycles} cycles of the netlist, all outputs as the run's\n", f"{target} {port} {ran.stderr}")

    @needs(YOSYS)
    def test_yosys_takes_both_targets(self):
        library = "read_verilog -lib +/xilinx/cells_sim.v; hierarchy -check -top matcher_mapped; proc"
        for target, words in (("generic", "synth -top matcher_mapped"), ("xilinx", library)):
            path = self.put("m.v", flow("hdl", f"{DATA}/matcher_t.blif", f"{DATA}/matcher.ppc", "--target", target).stdout)
            ran = run([find(YOSYS) or "", "-q", "-p", f"read_verilog {path}; {words}; check -assert"])
            self.assertEqual((ran.returncode, ran.stderr), (0, ""))

    @needs(VERILATOR)
    def test_verilator_has_nothing_to_say(self):
        for name in ("fir", "coder"):
            for target, port, *word in (*WAYS, ("generic", "random", "--word", "8"), ("xilinx", "random", "--word", "4")):
                flow("hdl", f"{DATA}/{name}_t.blif", f"{DATA}/{name}.ppc", "--target", target, "--port", port, *word, "--out", self.folder)
                files = [f"{self.folder}/{name}_mapped{end}.v" for end in ("", "_bench")]
                ran = run([find(VERILATOR) or "", "--lint-only", "-Wall", "-DINSIDE", "--timing", "--top-module", f"{name}_mapped_bench", *files])
                self.assertEqual((ran.returncode, ran.stderr), (0, ""))

    def test_faults(self):
        files = f"{DATA}/fir_t.blif", f"{DATA}/fir.ppc"
        self.assert_fault(flow("hdl", *files, "--simulate"), "--simulate needs --script")
        self.assert_fault(flow("hdl", *files, "--script", "x"), "--script needs --out")
        self.assert_fault(flow("hdl", *files, "--target", "other"), "invalid choice", 2)
        self.assert_fault(flow("hdl", *files, "--netlist", "x.v"), "--netlist needs --simulate")
        self.assert_fault(flow("hdl", *files, "--regions", "2", "--port", "random"), "all other ports have one region")
        for words in (("--word", "8"), ("--port", "random", "--word", "33"), ("--port", "random", "--word", "0"), ("--word", "8", "--target", "xilinx")):
            self.assert_fault(flow("hdl", *files, *words), "--port random has words of 1 to 32 bits, and --port chain has none")
        for name in ("foo bar", "1x", "wire", "../x", ""):
            self.assert_fault(flow("hdl", *files, "--module", name, "--out", self.folder), "a module name has letters, digits and _")
        script = ("--script", f"{EXAMPLES}/fir/ten.scr", "--simulate")
        self.assert_fault(flow("hdl", *files, *script, given="", PATH=self.folder), "Icarus Verilog (iverilog) isn't on the PATH")
