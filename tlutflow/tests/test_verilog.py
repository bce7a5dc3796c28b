"""Netlists from Verilog."""

import json
import os
import unittest

from tlutflow.faults import Fault
from tlutflow.netlist import parse_library
from tlutflow.tests.helpers import EXAMPLES, InFolder, example, flow, needs
from tlutflow.tools import YOSYS
from tlutflow.verilog.design import Port, attribute_value, obstacle, parameters_of
from tlutflow.verilog.design_json import bus_of

MARKED = """module top (input clk, rst, (* tlut_param = 4'h9 *) input [4:1] k, input [3:0] x, output reg [3:0] y);
    reg [3:0] kept;
    always @(posedge clk or posedge rst) if (rst) y <= 3; else y <= x ^ k;
    always @(posedge clk) if (x[0]) kept <= x;
endmodule
"""


MADE_CLOCK = """module top (input c, d, output reg q);
    reg half = 0; always @(posedge c) half <= ~half;
    always @(posedge half) q <= d;
endmodule
"""
LOOP = """module top (input [1:0] a, output [1:0] y);
    wire [1:0] n = {y[0], y[1]} & a;
    assign y = n ^ {a[0], 1'b1};
endmodule
"""
CELLS = """module INVERT (input I, output O); assign O = ~I; endmodule
module KEEP #(parameter INIT = 1'b0) (input C, D, output reg Q); initial Q = INIT; always @(posedge C) Q <= D; endmodule
module ANALOGUE (input I, output O); endmodule
module HUGE (input C, input [13:0] A, output reg Q);
    reg [15:0] kept [0:16383];
    integer i;
    always @(posedge C) begin Q <= kept[A][0]; for (i = 0; i < 16384; i = i + 1) kept[i] <= i; end
endmodule
"""
PLACED = """module top (input c, d, output q, r);
    wire n;
    INVERT i (.I(d), .O(n));
    KEEP #(.INIT(1'b1)) k (.C(c), .D(n), .Q(q));
    assign r = n;
endmodule
"""
PACKAGE = """package p; localparam int W = 4; typedef logic [W-1:0] word_t; typedef enum logic [1:0] {IDLE, RUN} state_t;
function automatic [3:0] twist; input [3:0] v; twist = {v[0], v[3:1]}; endfunction
endpackage
"""
PACKED = """module top (input logic c, input p::word_t a, output p::word_t q);
    p::state_t s = p::IDLE;
    always_ff @(posedge c) begin q <= p::twist(a) ^ s; s <= p::RUN; end
endmodule
"""
TURNED = """module top (input clk, rst, input signed [3:0] d, input [0:3] p, output signed [3:0] y, output par);
    reg [3:0] count = 3;
    reg [1:0] late;
    always @(posedge clk) count <= count + 1;
    always @(posedge clk or posedge rst) if (rst) late <= 3; else late <= count[1:0];
    assign y = d ^ {p ^ count};
    assign par = ^late;
endmodule
"""


def port(name: str, width: int, attribute=None, **more) -> Port:
    return Port(bus_of(name, {"bits": [0] * width, **more}), True, attribute)


class Ports(unittest.TestCase):
    def test_names_of_bits(self):
        self.assertEqual(port("x", 2, offset=1).bus.nets, ("x[1]", "x[2]"))
        self.assertEqual(port("x", 3, upto=1).bus.nets, ("x[2]", "x[1]", "x[0]"))
        self.assertEqual(port("x", 1).bus.nets, ("x",))

    def test_values(self):
        self.assertEqual(parameters_of([port("a", 2, "01"), port("b", 2, "11"), port("c", 1)], ["b=1"], []), {"a[0]": 1, "a[1]": 0, "b[0]": 1, "b[1]": 0})
        self.assertEqual(attribute_value(port("a", 3, f"{-2 & 0xFFFFFFFF:032b}")), 6)
        for ports, given, part in (
            ([port("a", 2)], ["z=1"], "the input ports are a[1:0]"),
            ([port("a", 2)], ["a"], "isn't PORT=VALUE"),
            ([port("a", 2)], ["a=1", "a=2"], "has a value already"),
            ([port("a", 2)], ["a=4"], "a[1:0] has 2 bits"),
            ([port("a", 2, "0" * 29 + "100")], [], "is 4, and the port has 2 bits"),
        ):
            with self.assertRaisesRegex(Fault, part.replace("[", r"\[")):
                parameters_of(ports, given, [])

    def test_obstacles(self):
        for text, part in (
            (".model m\n.inputs a\n.outputs y\n.subckt $_DLATCH_P_ D=a E=a Q=y\n.end", "there is no logic for the cells $_DLATCH_P_"),
            (".model m\n.inputs a\n.outputs y\n.latch a y 2\n.end", "y keeps a value without a clock"),
            (".model m\n.inputs a c\n.outputs y\n.names c d\n0 1\n.latch a y re d 0\n.end", "the clock d is no input"),
            (".model m\n.inputs a c d\n.outputs y z\n.latch a y re c 0\n.latch a z re d 0\n.end", "there are 2 clocks, c, d"),
            (".model m\n.inputs a c\n.outputs y c\n.latch a y re c 0\n.end", "is also read as data"),
        ):
            self.assertIn(part, obstacle(parse_library(text, "n")))
        self.assertIsNone(obstacle(parse_library(example("fir/fir.blif"), "n")))


class Netlists(InFolder):
    @needs(YOSYS)
    def test_filter(self):
        ran = flow("verilog", "--quick", f"{EXAMPLES}/fir/fir.v", "--top", "fir", "--param", "c0=5", "--param", "c1=3", "--param", "c2=6", "--out", f"{self.folder}/out")
        self.assertEqual(ran.stdout.splitlines()[0], f"{self.folder}/out/fir.blif: clock clk; inputs x[2:0]; outputs y[5:0]; 6 register bits", ran.stderr)
        with open(f"{self.folder}/out/fir.par", encoding="utf-8") as file:
            self.assertEqual(file.read(), "".join(example("fir/fir.par").splitlines(True)[1:]))

    @needs(YOSYS)
    def test_attribute_reset_and_initial_values(self):
        ran = flow("verilog", "--quick", self.put("top.v", MARKED), "--top", "top", "--out", self.folder)
        told = f"flow verilog: y[3:0] ({self.folder}/top.v:3) has an asynchronous reset; in the netlist it waits for the next edge"
        self.assertEqual((ran.returncode, ran.stderr.count("\n")), (0, 1), ran.stderr)
        self.assertTrue(ran.stderr.startswith(told), ran.stderr)
        self.assertIn("4 register bits, 4 of them without an initial value, which start at 0", ran.stdout)
        self.assertIn("top.par: k=9", ran.stdout)
        with open(f"{self.folder}/top.par", encoding="utf-8") as file:
            self.assertEqual(file.read(), "k[1] 1\nk[2] 0\nk[3] 0\nk[4] 1\n")

    @needs(YOSYS)
    def test_what_a_netlist_cannot_hold_is_refused_or_told(self):
        for text, part in (
            ("module top (input a, e, output y);\nassign y = e ? a : 1'bz;\nendmodule", "y (top.v:2) gets the value z"),
            ("module top (input a,\ninout b, output y); assign y = a; endmodule", "b (top.v:2) is an inout"),
            ("module top (input a); endmodule", "top has no output"),
        ):
            self.put("top.v", text)
            self.assert_fault(flow("verilog", "--quick", "top.v", "--top", "top", folder=self.folder), part)
        self.put("top.v", "module top (input a,\noutput [2:0] q, output r);\nwire n;\nassign q[1] = a; assign r = n & a; endmodule")
        ran = flow("verilog", "--quick", "top.v", "--top", "top", folder=self.folder)
        lines = [f"flow verilog: {name} (top.v:{line}) has no driver; Yosys chooses the value of what reads it, mostly 0" for name, line in (("q[0]", 2), ("q[2]", 2), ("n", 3))]
        self.assertEqual((ran.returncode, ran.stderr.splitlines()), (0, lines))

    @needs(YOSYS)
    def test_loops_have_names_and_lines(self):
        self.put("top.v", LOOP)
        for words in (("--quick",), ("--only", "raw")):
            ran = flow("verilog", "top.v", "--top", "top", *words, folder=self.folder)
            self.assert_fault(ran, " depends on itself through ")
            self.assertRegex(ran.stderr, r"verilog: [ny]\[[01]\] \(top.v:[12]\) depends on itself through [ny]\[[01]\] \(top.v:[12]\)")

    @needs(YOSYS)
    def test_cells_of_a_library(self):
        """Of a library only the cells that the design has are looked at; a huge one doesn't matter."""
        self.put("cells.v", CELLS)
        self.put("top.v", PLACED)
        words = ("verilog", "--quick", "top.v", "--top", "top", "--cells", "cells.v")
        ran = flow(*words, folder=self.folder)
        self.assertEqual(ran.stdout.splitlines()[0], "top.blif: clock c; inputs d; outputs q, r; 1 register bit", ran.stderr)
        self.assertIn("cells: only those that the design has are looked at\nread_verilog -defer \"cells.v\"\n", flow(*words, "--recipe", folder=self.folder).stdout)
        with open(f"{self.folder}/top.blif", encoding="utf-8") as file:
            self.assertIn(" re c 1\n", file.read())

    @needs(YOSYS)
    def test_packages(self):
        """What the page says of packages."""
        self.put("p.sv", PACKAGE)
        self.put("top.sv", PACKED)
        ran = flow("verilog", "--quick", "p.sv", "top.sv", "--top", "top", folder=self.folder)
        self.assertEqual(ran.stdout.split(";")[:3], ["top.blif: clock c", " inputs a[3:0]", " outputs q[3:0]"], ran.stderr)

    @needs(YOSYS)
    def test_wide_values(self):
        self.put("top.v", "module top (input [39:0] k, input x, output y); assign y = ^k ^ x; endmodule")
        ran = flow("verilog", "--quick", "top.v", "--top", "top", "--param", f"k={10 ** 11}", folder=self.folder)
        self.assertEqual(ran.stdout.splitlines()[1], "top.par: k=0x174876e800", ran.stderr)

    @needs(YOSYS)
    def test_odd_names_and_words(self):
        self.put("top.v", "module \\m\\n+$x (input \\a$b , c, output \\y+1 ); assign \\y+1 = \\a$b & c; endmodule")
        for top in ("m\\n+$x", "\\m\\n+$x"):
            ran = flow("verilog", "--quick", "top.v", "--top", top, "--param", "c=1", folder=self.folder)
            self.assertEqual(ran.stdout, "m_n+$x.blif: no clock; inputs a$b; outputs y+1; 0 register bits\nm_n+$x.par: c=1\n", ran.stderr)
        self.assertEqual(flow("script", "m_n+$x.blif", "m_n+$x.par", given="cycle a$b=1\n", folder=self.folder).stdout, "cycle 1\n")
        self.assert_fault(flow("verilog", "--quick", "top.v", "--top", "a b", folder=self.folder), "can't have blanks")
        self.assert_fault(flow("verilog", "--quick", "top.v", "--top", "x", "--set", "N", folder=self.folder), "it isn't NAME=VALUE")

    @needs(YOSYS)
    def test_words_of_verilog(self):
        """Macros, included files, module parameters, several files, and commands of ABC with blanks."""
        os.makedirs(f"{self.folder}/inc")
        self.put("inc/width.vh", "`define BASE 2\n")
        self.put("part.v", "module part #(parameter N = 1) (input [N-1:0] a, output y); assign y = ^a; endmodule")
        self.put("top.v", '`include "width.vh"\nmodule top #(parameter N = 4) (input [N*`BASE-1:0] a, output y);\npart #(N*`BASE) p (a, y);\nendmodule')
        words = ("--set", "N=3", "-I", "inc", "--define", "UNUSED=1", "--abc", "strash; map -B 0.9; topo")
        ran = flow("verilog", "--quick", "top.v", "part.v", "--top", "top", *words, folder=self.folder)
        self.assertEqual(ran.stdout.splitlines()[0], "top.blif: no clock; inputs a[5:0]; outputs y; 0 register bits", ran.stderr)

    @needs(YOSYS)
    def test_digits_signs_and_registers(self):
        """One meaning of a value everywhere, and the source's names of registers."""
        self.put("top.v", TURNED.replace("reg [1:0] late", "reg [0:1] late"))
        told = flow("verilog", "--quick", "top.v", "--top", "top", folder=self.folder).stderr
        self.assertEqual((told.count("\n"), told[:31]), (1, "flow verilog: late[0:1] (top.v:"), told)
        self.put("top.v", TURNED)
        ran = flow("verilog", "--quick", "top.v", "--top", "top", "--param", "p=1", folder=self.folder)
        self.assertEqual(ran.stdout, "top.blif: clock clk; inputs rst, d[3:0]; outputs y[3:0], par; 6 register bits, 2 of them without an initial value, which start at 0\n"
                                     "top.par: p=1\n")
        with open(f"{self.folder}/top.par", encoding="utf-8") as file:
            self.assertEqual(file.read(), "p[3] 1\np[2] 0\np[1] 0\np[0] 0\n")
        files = ("top.blif", "top.par")
        self.assertEqual(flow("params", "top.blif", "p=1", folder=self.folder).stdout, "p[3] 1\np[2] 0\np[1] 0\np[0] 0\n")
        script = flow("script", *files, given="set p=1\ncycle d=-3\n", folder=self.folder).stdout
        self.assertEqual(script, "set p[3]=1 p[2]=0 p[1]=0 p[0]=0\ncycle 01011\n")
        with open(f"{self.folder}/top.ports.json", encoding="utf-8") as file:
            kept = json.load(file)
        self.assertEqual(sorted(kept["registers"]), ["count[0]", "count[1]", "count[2]", "count[3]", "late[0]", "late[1]"])
        # -3 comes back as -3, since y is signed; p and the registers have their names.
        order = kept["registers"]
        states = "".join(str((5 >> int(name[6])) & 1) if name.startswith("count") else "0" for name in order)
        shown = flow("show", *files, "--states", given=f"cycle 10110 {states}\n", folder=self.folder).stdout
        self.assertEqual(sorted(shown.split()), sorted("cycle y=-3 par=0 | count=5 late=0".split()))

    @needs(YOSYS)
    def test_faults(self):
        for text, part in (
            ("module top (input a, output y); assign y = b; assign y = (; endmodule", "syntax error"),
            ("module other; endmodule", "top"),
            ("module top (input d, e, output reg q); always @* if (e) q = d; endmodule", "q (top.v:1) keeps a value without a clock"),
            ("module top (input c, d, output reg q); always @(negedge c) q <= d; endmodule", "q (top.v:1) is clocked at the falling edge of c"),
            (MADE_CLOCK, "q (top.v:3) has the clock half, which isn't an input"),
            ("module top (input a, b, d, output reg q, r); always @(posedge a) q <= d; always @(posedge b) r <= d; endmodule", "there are 2 clocks"),
        ):
            self.put("top.v", text)
            self.assert_fault(flow("verilog", "--quick", "top.v", "--top", "top", folder=self.folder), part)
        self.assert_fault(flow("verilog", "--quick", f"{self.folder}/no.v", "--top", "top"), "no.v")

    def test_without_yosys(self):
        self.assert_fault(flow("verilog", "--quick", "x.v", "--top", "x", PATH=self.folder), "Yosys (yosys) isn't on the PATH")

    def test_recipe(self):
        text = flow("verilog", "a.sv", "b.v", "--top", "t", "--recipe", "--abc", "strash").stdout
        commands = [line for line in text.splitlines() if not line.startswith("#")]
        self.assertEqual(commands[:3], ['read_verilog -sv "a.sv"', 'read_verilog "b.v"', "synth -flatten -top t"])
        more = flow("verilog", "a.v", "--top", "t", "--recipe", "--set", "N=8", "-D", "FAST=1", "-I", "inc", "--abc", "strash; map -B 0.9").stdout
        self.assertIn('read_verilog -DFAST=1 -Iinc "a.v"\n# a module parameter\'s value\nchparam -set N 8 t\n', more)
        self.assertIn("-script +strash;map,-B,0.9\n", more)
        slang = flow("verilog", "a.sv", "b.sv", "--top", "t", "--recipe", "--reader", "slang").stdout
        self.assertIn('plugin -i slang\n# the design\nread_slang --top t "a.sv" "b.sv"\n', slang)
        self.assertIn("abc -g AND,OR,XOR,MUX -script +strash", commands)
        self.assertIn("opt_clean -purge", commands)
