"""Large logic in parts: how it is divided and put together, what is left out, and synthesis module by module."""

import json
import os
import stat
import unittest
from dataclasses import replace
from functools import partial
from unittest import mock

from tlutflow.faults import Undecided
from tlutflow.netlist import Model, parse_library
from tlutflow.preparations import PREPARATIONS, chosen, further
from tlutflow.preparing.combinational import compared_texts, logic_of, next_states
from tlutflow.preparing.comparison import BY_PARTS, WHOLE
from tlutflow.preparing.flat import read_flat
from tlutflow.preparing.graphs import Bench
from tlutflow.preparing.part_trials import prepare_by_parts
from tlutflow.preparing.parts import PART_SIZE, Divided, divided, put_together, size_of
from tlutflow.preparing.trials import Task, prepare
from tlutflow.tests.helpers import InFolder, example, flow, needs
from tlutflow.text import read_text, write_text
from tlutflow.tools import ABC, YOSYS, find, run
from tlutflow.verilog.design import gates_about
from tlutflow.verilog.design_json import read_design
from tlutflow.verilog.recipe import Sources, look, script_text

# Two clusters: y and z share m; w and the next state of s have gates of their own. f has parameters alone below it, one is a constant.
SHARED = """.model top
.inputs clk a b c p q
.outputs y z w one
.names a b m
11 1
.names m c y
10 1
01 1
.names m one n
11 1
.names n f z
1- 1
-1 1
.names p q f
11 1
.names one
1
.names s c p k
111 1
.names k s w
10 1
.names s f g
01 1
.latch g s re clk 1
.end
"""
# Two places of one module, with ports that are constants.
PLACED = """module half (input clk, on, input [3:0] a, b, output reg [3:0] y);
    always @(posedge clk) y <= on ? (a & b) + {a[1:0], b[1:0]} : a ^ b;
endmodule
module top (input clk, input [3:0] a, b, k, output [3:0] y, z);
    half first (clk, 1'b1, a, k, y);
    half second (clk, a[0], b, y ^ k, z);
endmodule
"""
# A memory that is only read.
ROM = "reg [7:0] words [0:255]; initial words[3] = 1; assign y = words[a];"
# Another function of many inputs and outputs.
OTHER = ".model o\n.inputs i0 i1 i2\n.outputs o0\n.names i0 o0\n0 1\n.end\n"
# Stands for ABC: it does something else on a part of five inputs.
PARTLY = r"""#!/bin/sh
file=$(echo "$*" | sed -n 's/.*read_blif \(source[0-9]*.blif\).*/\1/p')
if [ -n "$file" ] && grep -q i4 "$file"; then {instead}; fi
exec {abc} "$@"
"""


def functions_of(model: Model) -> list[int]:
    """The truth tables of the outputs and next states over all inputs and states, the next states in the order of their names."""
    inputs = logic_of(model).inputs
    ones = (1 << (1 << len(inputs))) - 1
    values = {net: ones // ((1 << (1 << place)) + 1) for place, net in enumerate(inputs)}
    waiting = list(model.covers)
    while waiting:
        ready = [it for it in waiting if all(net in values for net in it.inputs)]
        assert ready, "a loop"
        for cover in ready:
            rows = [cubes(cells, [values[net] for net in cover.inputs], ones) for cells, _ in cover.rows]
            on = 0
            for row in rows:
                on |= row
            values[cover.output] = on if not cover.rows or cover.rows[0][1] == "1" else ones & ~on
        waiting = [it for it in waiting if it.output not in values]
    return [values[net] for net in [*model.outputs, *(source for _, source in sorted(next_states(model).items()))]]


def cubes(cells: str, inputs: list[int], ones: int) -> int:
    """The truth table of a row."""
    found = ones
    for cell, value in zip(cells, inputs):
        found &= ones if cell == "-" else value if cell == "1" else ones & ~value
    return found


def gates_of(text: str, most: int) -> list[list[str]]:
    """The gates of each part of a netlist with the parameters p and q, and then those that stay as they are."""
    whole = divided(logic_of(parse_library(text, "n").main), ["p", "q"], most)
    return [*([it.output for it in part.gates] for part in whole.parts), [it.output for it in whole.rest]]


class Dividing(unittest.TestCase):
    def test_groups(self):
        """Roots that share gates are together if these fit into a part; otherwise one part reads what another one has."""
        self.assertEqual(gates_of(SHARED, 100), [["m", "y", "n", "z", "k", "w", "g"], ["f", "one"]])
        self.assertEqual(gates_of(SHARED, 6), [["m", "y", "n", "z"], ["k", "w", "g"], ["f", "one"]])
        self.assertEqual(gates_of(SHARED, 5), [["m", "y"], ["n", "z", "k", "w"], ["g"], ["f", "one"]])
        first, second, _ = divided(logic_of(parse_library(SHARED, "n").main), ["p", "q"], 5).parts
        self.assertEqual((first.inputs, first.outputs), (["a", "b", "c"], ["m", "y"]))
        self.assertEqual((second.inputs, second.outputs, [it.output for it in second.constants]), (["m", "f", "s", "c", "p"], ["z", "w"], ["one"]))

    def test_put_together(self):
        """Whatever the size, no gate is in two parts, each part reads earlier ones alone, and together they are the source."""
        for text in (SHARED, *(example(f"{name}/{name}.blif") for name in ("mux", "matcher", "coder", "fir"))):
            logic = logic_of(parse_library(text, "n").main)
            wanted = functions_of(logic.model)
            for most in (1, 2, 3, 5, 8, 50, 1000):
                whole = divided(logic, logic.inputs[1::2], most)
                self.check_order(whole, most)
                texts = [part.text() for part in whole.parts]
                for made in (texts, [None] * len(texts), [text if place % 2 else None for place, text in enumerate(texts)]):
                    self.assertEqual(functions_of(parse_library(put_together(whole, made), "m").main), wanted)

    def check_order(self, whole: Divided, most: int) -> None:
        """The parts have each gate once, aren't too large, and read only what is there before them."""
        gates = [it.output for it in (*whole.rest, *(it for part in whole.parts for it in part.gates))]
        self.assertEqual(len(gates), len(set(gates)))
        known = {*whole.logic.inputs, *(it.output for it in whole.rest)}
        for part in whole.parts:
            self.assertLessEqual(set(part.inputs), known)
            self.assertTrue(size_of(part.gates) <= most or len(part.gates) == 1)
            known.update(part.outputs)


class LeftOut(InFolder):
    def partly(self, instead: str) -> str:
        """A program that stands for ABC, and does something else on the second part."""
        path = self.put("partly", PARTLY.format(instead=instead, abc=find(ABC)))
        os.chmod(path, stat.S_IRWXU)
        return path

    def prepared(self, abc: str, *commands: str, seconds: float = 60) -> str:
        """Prepares the netlist by parts, one at a time, checks that it stays the same circuit, and returns what was left out."""
        netlist = self.put("n.blif", SHARED)
        preparation = further([f"own={'; '.join(commands)}"], [])[0]
        told = prepare_by_parts(netlist, ["p", "q"], preparation, Bench(abc, f"{self.folder}/graphs", seconds), 1, 5)
        self.assertEqual(functions_of(read_flat(netlist)), functions_of(parse_library(SHARED, "n").main))
        return told

    @needs(ABC)
    def test_parts(self):
        self.assertEqual(self.prepared(find(ABC), "dch", "map -B 0.9", "topo"), "")
        self.assertNotEqual(read_text(f"{self.folder}/n.blif"), SHARED)

    @needs(ABC)
    def test_a_part_that_fails(self):
        told = self.prepared(self.partly("echo Error: no memory; exit 9"), "balance")
        self.assertEqual(told, "1 of 3 parts as read, with z: ABC ended with status 9: Error: no memory")
        self.assertIn(".names m one n", read_text(f"{self.folder}/n.blif"))

    @needs(ABC)
    def test_a_part_that_takes_too_long(self):
        told = self.prepared(self.partly("while :; do :; done"), "balance", seconds=1)
        self.assertEqual(told, "1 of 3 parts as read, with z: ABC was stopped after 1 seconds of processor time")

    @needs(ABC)
    def test_a_part_that_is_changed(self):
        """What isn't the part that was read isn't taken, and a register's part is called after the register."""
        told = self.prepared(find(ABC), f"read_blif {self.put('other.blif', OTHER)}", "strash")
        self.assertEqual(told, "3 of 3 parts as read, with y, z, s: " + told.split(": ")[-1])
        self.assertEqual(read_text(f"{self.folder}/n.blif"), SHARED)

    @needs(ABC)
    def test_all_preparations(self):
        """`flow prepare` of large logic: by parts, of which some may be left out, and compared as a whole, or by parts if that takes too long."""
        task = Task(self.put("n.blif", SHARED), self.put("n.par", "p 0\nq 1\n"), 4, preparations=chosen(["dc2", "gstay"], PREPARATIONS), part_size=5)
        task = replace(task, program=self.sizes(), jobs=1, rules=("tlut",))
        for compared in (WHOLE, BY_PARTS):
            late = Undecided("late") if compared == BY_PARTS else None
            with mock.patch("tlutflow.preparing.comparison.compared_texts", side_effect=late or compared_texts):
                found = prepare(task, f"{self.folder}/{len(compared)}")
            self.assertEqual([(it.name, it.failure, it.compared) for it in found.trials], [("as read", "", WHOLE), ("dc2", "", compared), ("gstay", "", compared)])
            for trial in found.trials:
                self.assertEqual(functions_of(read_flat(trial.results[0].file)), functions_of(read_flat(task.netlist)))

    @needs(ABC)
    def test_what_is_told(self):
        """The lines of `flow prepare` on what was left out."""
        partly = self.partly("exit 9")
        words = ("prepare", self.put("n.blif", SHARED), self.put("n.par", "p 0\nq 1\n"), "--only", "raw", "--only", "dc2", "-j", "1", "--tlut", self.sizes())
        with mock.patch("tlutflow.tools.need", return_value=partly), mock.patch("tlutflow.stages.preparing.Task", partial(Task, part_size=5)):
            ran = flow(*words, folder=self.folder)
        self.assertEqual(ran.returncode, 0, ran.stderr)
        self.assertEqual(ran.stderr.count("leaves 1 of 3 parts as read, with z: ABC ended with status 9"), 2, ran.stderr)

    def sizes(self) -> str:
        """A program that stands for tlut, and prints sizes."""
        path = self.put("tlut", "#!/bin/sh\necho luts 1 bits 8 depth 1\n")
        os.chmod(path, stat.S_IRWXU)
        return path


class Modules(InFolder):
    def test_recipe(self):
        text = flow("verilog", "a.v", "--top", "t", "--recipe", "--by-modules").stdout
        commands = [line for line in text.splitlines() if not line.startswith("#")]
        self.assertEqual(commands[1:4], ["synth -top t", "flatten", "opt -fast"])
        self.assertIn("synth -flatten -top t\n", flow("verilog", "a.v", "--top", "t", "--recipe").stdout)

    @needs(ABC, YOSYS)
    def test_same_circuit(self):
        """Synthesis module by module, and with a lowered size in parts too, makes the same circuit with the same names."""
        self.put("top.v", PLACED)
        words = ("verilog", "top.v", "--top", "top", "--param", "k=5", "--quick")
        for name, more, size in (("whole", (), PART_SIZE), ("modules", ("--by-modules",), PART_SIZE), ("parts", (), 10)):
            with mock.patch("tlutflow.stages.elaboration.PART_SIZE", size):
                ran = flow(*words, *more, "--out", name, folder=self.folder)
            self.assertEqual((ran.returncode, ran.stderr), (0, ""))
            self.assertEqual(flow("check", "whole/top.blif", f"{name}/top.blif", folder=self.folder).stdout, "equal (ABC cec, latch by latch)\n")
            registers = json.loads(read_text(f"{self.folder}/{name}/top.ports.json"))["registers"]
            self.assertEqual(sorted(registers), [f"{half}.y[{place}]" for half in ("first", "second") for place in range(4)])

    @needs(YOSYS)
    def test_size_of_a_design(self):
        """Operators count by what they read; a memory counts for each of its words."""
        for body, gates in (("assign y = a & b;", 8), ("assign y = a * b;", 64), ("assign y = {8{a[0]}};", 0), (ROM, 8 * 256 // 2)):
            self.put("top.v", f"module top (input [7:0] a, b, output [7:0] y); {body} endmodule")
            write_text(f"{self.folder}/look.ys", script_text(look(Sources(["top.v"], "top"), "design.json")))
            run([find(YOSYS), "-q", "-s", "look.ys"], self.folder)
            self.assertEqual(gates_about(read_design(f"{self.folder}/design.json", "top")), gates, body)


if __name__ == "__main__":
    unittest.main()
