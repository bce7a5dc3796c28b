"""Drawn designs with sums of products with parameters: mapped and run by `tlut` beside their sources in Icarus Verilog. With TLUT_DESIGNS=N there
are N of them."""

import os
import random
import unittest

from tlutflow import tools
from tlutflow.bus import Bus
from tlutflow.netlist import read_library
from tlutflow.runs.output import parse_output
from tlutflow.tests.helpers import TOP, InFolder, flow, needs
from tlutflow.tests.sum_designs import SumDesign
from tlutflow.tests.test_build import NEEDS_TLUT
from tlutflow.tests.test_designs import Design, Event, text_of
from tlutflow.tools import ABC, ICARUS, ICARUS_PLAYER, YOSYS, run

MANY = int(os.environ.get("TLUT_DESIGNS", "20"))
STYLES = ("tables", "digits", "prefix", "alldata", "tables_map", "digits_st")


def extreme(bus: Bus, draw: random.Random) -> int:
    """A value of a bus, often one of its least or greatest ones."""
    ones = (1 << bus.width) - 1
    return draw.choice([0, ones, 1 << bus.width >> 1, ones >> 1, draw.randint(0, ones), draw.randint(0, ones)])


def events_of(design: Design, sets: int, cycles: int, seed: int) -> list[Event]:
    """Drawn events: so many sets of some of the parameters, with cycles after each."""
    draw, events = random.Random(seed), []
    for _ in range(sets):
        chosen = draw.sample(design.parameters, draw.randint(1, len(design.parameters)))
        events.append(("set", {bus.name: extreme(bus, draw) for bus in chosen}))
        events += [("cycle", {bus.name: extreme(bus, draw) for bus in design.inputs}) for _ in range(cycles)]
    return events


class Sums(InFolder):
    @needs(ABC, YOSYS, ICARUS, ICARUS_PLAYER)
    @NEEDS_TLUT
    def test_drawn_designs(self):
        """Each design, in a style and at a K that its number chooses, under drawn and extreme values of data and parameters."""
        for number in range(MANY):
            with self.subTest(number):
                self.compare(number)

    def compare(self, number: int) -> None:
        """One design."""
        folder, k, style = f"{self.folder}/{number}", str(4 + number % 3), STYLES[number % len(STYLES)]
        os.makedirs(folder)
        source = self.put(f"{number}/sums.v", SumDesign(number).text)
        ran = flow("verilog", source, "--top", "sums", "--k", k, "--only", style, "-j", "2", "--for", "luts", "--out", folder)
        self.assertEqual((ran.returncode, "is left out" in ran.stderr), (0, False), f"{number}: {ran.stderr}")
        design = Design(source, folder)
        events = events_of(design, 12, 8, number)
        files = design.path(".blif"), design.path(".par")
        script = self.put(f"{number}/events.scr", flow("script", *files, given=text_of(events)).stdout)
        ran = run([tools.tlut(None), "--compact", "run", k, *files, script, "0", "0"])
        self.assertEqual(ran.returncode, 0, ran.stderr)
        played = [it.outputs for it in parse_output(ran.stdout, "run").events if it.word == "cycle"]
        self.assertEqual(played, design.wanted(events), number)


class Filters(InFolder):
    """The filters that the pages show."""

    @needs(ABC, YOSYS)
    @NEEDS_TLUT
    def test_figures(self):
        """With tables the filters take as many LUTs as the pages say, chosen by measuring."""
        for source, k, most in ((f"{TOP}/examples/fir8/fir8.v", "4", (461, 14)), (f"{TOP}/tlutflow/tests/designs/kernel.v", "6", (221, 8))):
            top = os.path.basename(source)[:-2]
            words = ["--only", "raw", "--only", "tables", "--only", "tables_map"]
            ran = flow("verilog", source, "--top", top, "--k", k, *words, "--for", "luts", "--out", self.folder)
            self.assertEqual(ran.returncode, 0, ran.stderr)
            self.assertIn("sums with parameters are tables (sums: 1; tables: ", ran.stdout)
            made = run([tools.tlut(None), "--compact", "map", k, f"{self.folder}/{top}.blif", f"{self.folder}/{top}.par", f"{self.folder}/t", f"{self.folder}/p"])
            found = dict(zip(made.stdout.split()[::2], map(int, made.stdout.split()[1::2])))
            self.assertLessEqual((found["luts"] > most[0], found["depth"] > most[1]), (False, False), made.stdout)
            self.assertGreater(len(read_library(f"{self.folder}/{top}.blif").main.covers), 500)

    @needs(ABC, YOSYS)
    @NEEDS_TLUT
    def test_without_sums(self):
        """A design without a sum that has a parameter has no netlist with tables, and naming one is a fault."""
        source = self.put("plain.v", "module plain (input [3:0] x, (* tlut_param = 1 *) input p, output y); assign y = p ? ^x : &x; endmodule\n")
        self.assert_fault(flow("verilog", source, "--top", "plain", "--only", "tables", "--out", self.folder), "--only tables: no sum of plain has a parameter")
        ran = flow("verilog", source, "--top", "plain", "--only", "raw", "--only", "tables", "--out", self.folder)
        self.assertEqual(ran.returncode, 0, ran.stderr)


if __name__ == "__main__":
    unittest.main()
