"""Preparations: AIGER and models in models as flat netlists, the logic without flip-flops, and the choice of the best."""

import json
import os
import stat
import tempfile
import unittest
from dataclasses import replace

from tlutflow.faults import Fault
from tlutflow.netlist import parse_library, read_library
from tlutflow.preparations import PREPARATIONS, Preparation, chosen, further
from tlutflow.preparing.combinational import compared_texts, interface_difference, logic_of, netlist_text
from tlutflow.preparing.flat import flat_model
from tlutflow.preparing.trials import AIMS, Result, Task, prepare
from tlutflow.tests.helpers import EXAMPLES, MUX, TOP, InFolder, flow, needs
from tlutflow.text import read_text
from tlutflow.tools import ABC, BUILT, YOSYS

NEEDS_TLUT = unittest.skipUnless(any(os.path.exists(f"{TOP}/{it}") for it in BUILT), "tlut isn't built")
# Few and quick ones, of which none is the best for all designs.
SHORT = chosen(["raw", "map", "dc2", "dg1", "g2n"], PREPARATIONS)
# These have steps in common.
LIKE = chosen(["g1", "g2n", "dg1", "dg2", "gstay", "dgstay"], PREPARATIONS)
# A counter with names that need care: an output that is an input, a flip-flop that starts at 1, one without a start, and a clock.
COUNTER = """.model top
.inputs clk a p
.outputs q[0] a s
.names q[0] a p d
11- 1
--1 1
.names d q[1] s
10 1
01 1
.latch d q[0] re clk 1
.latch s q[1] re clk 3
.end
"""
LATE = """module top (input clk, rst, input [3:0] x, output reg [3:0] y);
    always @(posedge clk or posedge rst) if (rst) y <= 3; else y <= x;
endmodule
"""
# Outputs that are an input, a parameter, a flip-flop and a constant, beside one that is logic.
COPIES = """.model top
.inputs clk a p
.outputs x k q one y
.names a x
1 1
.names p k
1 1
.names s q
1 1
.names one
1
.names a p s y
110 1
0-1 1
.latch y s re clk 0
.end
"""
# A filter's two registers with a synchronous reset. Yosys makes buses for the sums whose upper places nothing drives.
SUMS = """module top (input clk, rst, input signed [3:0] x, c, output reg signed [9:0] y);
    wire signed [7:0] p = x * c;
    reg signed [9:0] s;
    always @(posedge clk) if (rst) begin y <= 0; s <= 0; end else begin s <= 0 + p; y <= s + p; end
endmodule
"""
HALVES = """.model top
.inputs a b
.outputs y
.subckt half x=a z=m
.subckt half x=m z=y
.end
.model half
.inputs x
.outputs z
.names x t
0 1
.latch t k 1
.names k x z
11 1
.end
"""


def by_cube(size: int) -> str:
    """A cover of six inputs with a row for each place where their exclusive or is 1: what a netlist of LUTs has."""
    rows = [f"{place:0{size}b} 1" for place in range(1 << size) if bin(place).count("1") % 2]
    return "\n".join([".model x", ".inputs a b c d e f", ".outputs y", ".names a b c d e f y", *rows, ".end", ""])


class Forms(unittest.TestCase):
    def test_models_in_models(self):
        flat = flat_model(parse_library(HALVES, "n"))
        self.assertEqual([it.state for it in flat.latches], ["0/k", "1/k"])
        self.assertEqual([(it.inputs, it.output) for it in flat.covers], [(["a"], "0/t"), (["0/k", "a"], "m"), (["m"], "1/t"), (["1/k", "m"], "y")])

    def test_logic_and_back(self):
        model = parse_library(COUNTER, "n").main
        logic = logic_of(model)
        self.assertEqual((logic.inputs, logic.roots), (["a", "p", "q[0]", "q[1]"], ["s", "d"]))
        made = netlist_text(logic, ".model l\n.inputs i0 i1 i2 i3\n.outputs o0 o1\n.names i0 o0\n1 1\n.names i1 x\n0 1\n.names x o1\n0 1\n.end\n", "n")
        again = parse_library(made, "m").main
        self.assertEqual(interface_difference(model, again), "")
        self.assertEqual([(it.source, it.state, it.control, it.init) for it in again.latches], [("d", "q[0]", "clk", "1"), ("s", "q[1]", "clk", "3")])
        self.assertEqual([it.output for it in again.covers], ["s", "n1", "d"])
        left, right = compared_texts(model, again)
        self.assertEqual(left.splitlines()[1:3], right.splitlines()[1:3])
        self.assertIn("flip-flops", interface_difference(model, parse_library(COUNTER.replace("clk 1", "clk 0"), "m").main))

    def test_words(self):
        self.assertGreaterEqual(len(PREPARATIONS), 12)
        self.assertEqual([it.name for it in sorted(PREPARATIONS, key=lambda it: -it.cost)][:3], ["dgstay", "gstay", "dg4"])
        self.assertEqual(further(["x=dc2;"], [])[0].commands, "strash; dc2; strash")
        for word, part in (("x", "isn't NAME=COMMANDS"), ("raw=dc2", "already")):
            with self.assertRaisesRegex(Fault, part):
                further([word], PREPARATIONS)
        with self.assertRaisesRegex(Fault, "the preparations are raw, map"):
            chosen(["z"], PREPARATIONS)

    def test_front(self):
        results = [Result("n", "tlut", *sizes, None, 0.0, "f") for sizes in ((4, 2, 9), (4, 2, 9), (3, 3, 9), (5, 2, 9))]
        beaten = [any(it.is_beaten_by(other) for other in results) for it in results]
        self.assertEqual(beaten, [False, False, False, True])


class Choices(InFolder):
    def found(self, netlist: str, parameters: str, **more):
        task = replace(Task(netlist, parameters, 4, jobs=2, preparations=SHORT[:4]), **more)
        room = tempfile.mkdtemp(dir=self.folder)
        return prepare(task, room)

    @needs(ABC)
    @NEEDS_TLUT
    def test_best_of_each_alone(self):
        """For each aim the best of the list is as good as the best of the preparations that are run alone, and equal to its source."""
        for name, aim in (("coder", "depth"), ("fir", "luts"), ("coder", "changes")):
            files = f"{EXAMPLES}/{name}/{name}.blif", f"{EXAMPLES}/{name}/{name}.par"
            best = self.found(*files, aim=aim).best
            alone = [self.found(*files, aim=aim, preparations=[it]).best.key(aim) for it in SHORT[:4]]
            self.assertEqual(best.key(aim), min(alone), (name, aim, AIMS[aim]))
            self.assertEqual(flow("check", files[0], best.file).stdout, "equal (ABC cec, latch by latch)\n")

    @needs(ABC)
    @NEEDS_TLUT
    def test_alike_alone(self):
        """Preparations that share steps make the netlists, byte by byte, that each one makes alone."""
        files = f"{EXAMPLES}/fir/fir.blif", f"{EXAMPLES}/fir/fir.par"
        together, alone = (self.texts(*files, parts) for parts in ([LIKE], [[it] for it in LIKE]))
        self.assertEqual(together, alone)
        self.assertEqual(len(together), len(LIKE))

    def texts(self, netlist: str, parameters: str, parts: list[list[Preparation]]) -> dict[str, str]:
        """The netlists that preparations make which are tried part by part, by their names."""
        trials = [trial for part in parts for trial in self.found(netlist, parameters, preparations=part).trials[1:]]
        return {trial.name: read_text(trial.results[0].file) for trial in trials}

    @needs(ABC)
    @NEEDS_TLUT
    def test_what_is_left_out(self):
        wrong = {"other": self.put("w.blif", MUX.replace("11- 1", "10- 1")), "ports": self.put("v.blif", MUX.replace("a b p", "b a p", 1))}
        broken = further(["bad=nothing_of_abc"], [])
        found = self.found(self.put("n.blif", MUX), self.put("n.par", "p 0\n"), ready=wrong, preparations=[*SHORT[:1], *broken])
        failures = {it.name: it.failure for it in found.failures}
        self.assertEqual((failures["other"], failures["ports"]), ("it differs from the source (ABC cec)", "its inputs differ from the source's"))
        self.assertEqual(failures["bad"], "ABC: ** cmd error: unknown command 'nothing_of_abc'")
        forever = further(["slow=" + "dch; " * 9000], [])
        slow = self.found(f"{EXAMPLES}/fir/fir.blif", f"{EXAMPLES}/fir/fir.par", preparations=forever, seconds=1)
        self.assertEqual(slow.failures[0].failure, "ABC was stopped after 1 seconds of processor time")
        self.assertEqual(slow.best.name, "as read")

    @needs(ABC)
    def test_a_limit_of_the_first_rule_alone(self):
        """What the first rule refuses for its cuts is mapped by the other one, and what both refuse says why."""
        with open(f"{self.folder}/tlut", "w", encoding="utf-8") as file:
            file.write("#!/bin/sh\n[ $1 = --compact ] || { echo \"tlut: $3: L4 NodeCuts node 9\" >&2; exit 4; }\necho luts 1 bits 8 depth 1\n")
        os.chmod(f"{self.folder}/tlut", stat.S_IRWXU)
        task = Task(self.put("n.blif", MUX), self.put("n.par", "p 0\n"), 4, preparations=chosen(["raw"], PREPARATIONS), program=f"{self.folder}/tlut")
        found = prepare(task, self.folder)
        self.assertEqual({(it.rule, it.tables) for it in found.results}, {("compact", 1)})
        self.assertEqual([it.failure for it in found.trials], ["", ""])
        with self.assertRaisesRegex(Fault, r"as read: tlut refuses it for a limit \(L4\)"):
            prepare(replace(task, rules=("tlut",)), self.folder)

    @needs(ABC)
    @NEEDS_TLUT
    def test_outputs_that_copy(self):
        """No preparation is lost where an output is an input, a register or a constant."""
        found = self.found(self.put("n.blif", COPIES), self.put("n.par", "p 0\n"), preparations=PREPARATIONS)
        self.assertEqual((found.failures, len(found.trials)), ([], 1 + len(PREPARATIONS)))

    @needs(ABC, YOSYS)
    @NEEDS_TLUT
    def test_buses_of_sums(self):
        """What Yosys leaves without a driver in its own buses reaches no preparation; the netlist is that of the recipe."""
        self.put("top.v", SUMS)
        words = ("verilog", "top.v", "--top", "top", "--param", "c=3")
        for more in (("--only", "raw", "--out", "made", "-j", "1"), ("--quick", "--out", "quick")):
            ran = flow(*words, *more, folder=self.folder)
            self.assertEqual((ran.returncode, "Undriven" in ran.stderr), (0, False), ran.stderr)
        self.assertEqual(flow("check", "made/top.blif", "quick/top.blif", folder=self.folder).stdout, "equal (ABC cec, latch by latch)\n")

    @needs(ABC)
    @NEEDS_TLUT
    def test_command(self):
        words = ("prepare", self.put("n.blif", COUNTER), self.put("n.par", "p 0\n"), "--k", "3", "--only", "raw", "--try", "own=balance", "--beside", "-j", "2")
        ran = flow(*words, folder=self.folder)
        lines = ran.stdout.splitlines()
        self.assertEqual(lines[0], "n.blif, 1 parameter, K 3, for depth", ran.stderr)
        self.assertIn("n_prepared.blif: ", lines[-1])
        self.assertIn("1 of 1 preparations, best so far: depth 1", ran.stderr)
        text = read_library(f"{self.folder}/n_prepared.blif").main
        self.assertEqual((text.inputs, text.outputs), (["clk", "a", "p"], ["q[0]", "a", "s"]))
        self.assertEqual(flow("check", f"{self.folder}/n.blif", f"{self.folder}/n_prepared.blif").stdout, "equal (ABC cec, latch by latch)\n")
        ran = flow("prepare", f"{self.folder}/n.blif", f"{self.folder}/n.par", "--only", "tables", folder=self.folder)
        self.assert_fault(ran, "the preparation tables is of sums with parameters, which a netlist doesn't have")

    @needs(ABC)
    @NEEDS_TLUT
    def test_aiger_and_a_netlist_of_tables(self):
        aiger = self.put("n.aag", "aag 3 1 1 1 1\n2\n4 6\n4\n6 5 2\ni0 set\no0 q\n")
        ran = flow("prepare", aiger, self.put("n.par", ""), "--only", "raw", folder=self.folder)
        self.assertEqual(ran.returncode, 0, ran.stderr)
        self.assertEqual(read_library(f"{self.folder}/n_prepared.blif").main.name, "aag")
        found = self.found(self.put("x.blif", by_cube(6)), f"{self.folder}/n.par", preparations=SHORT[:1])
        sizes = {it.name: (it.depth, it.tables) for it in found.results if it.rule == "tlut"}
        self.assertLess(sizes["raw"], sizes["as read"])

    def test_faults(self):
        netlist, params = self.put("n.blif", MUX), self.put("n.par", "p 0\n")
        self.assert_fault(flow("prepare", netlist, params, "--only", "z"), "the preparations are raw")
        self.assert_fault(flow("prepare", netlist, params, PATH=self.folder, TLUT=f"{TOP}/flow"), "ABC (yosys-abc or berkeley-abc) isn't on the PATH")
        self.assert_fault(flow("prepare", f"{self.folder}/no", params, TLUT=f"{TOP}/flow"), "No such file")
        self.assertIn("dgstay", flow("prepare", netlist, params, "--list").stdout)

    @needs(ABC, YOSYS)
    @NEEDS_TLUT
    def test_verilog(self):
        words = ("verilog", f"{EXAMPLES}/coder/coder.v", "--top", "coder", "--param", "key=0", "--out", self.folder, "--k", "4", "--for", "depth", "--only", "map", "--only", "dg1", "-j", "2")
        ran = flow(*words)
        self.assertEqual(ran.returncode, 0, ran.stderr)
        self.assertRegex(ran.stdout, r"preparation [a-z0-9 ]+, the best of 4 for depth at K 4: depth 2, ")
        made = f"{self.folder}/coder.blif"
        self.assertEqual(flow("check", f"{EXAMPLES}/coder/coder.blif", made).stdout, "equal (ABC cec, latch by latch)\n")

    @needs(ABC, YOSYS)
    @NEEDS_TLUT
    def test_names_of_registers(self):
        """The names of the registers don't depend on the preparation, whatever the nets are called."""
        self.put("top.v", LATE)
        for words in (("--quick",), ("--only", "raw", "-j", "1")):
            ran = flow("verilog", "top.v", "--top", "top", "--out", words[0].strip("-"), *words, folder=self.folder)
            self.assertEqual(ran.returncode, 0, ran.stderr)
            with open(f"{self.folder}/{words[0].strip('-')}/top.ports.json", encoding="utf-8") as file:
                self.assertEqual(sorted(json.load(file)["registers"]), ["y[0]", "y[1]", "y[2]", "y[3]"])
