"""Designs in Verilog through `flow build`, cycle by cycle beside their sources in Icarus Verilog."""

import json
import os
import unittest

from tlutflow import tools
from tlutflow.bus import Bus
from tlutflow.changes import Random
from tlutflow.netlist import read_library
from tlutflow.port_file import read_ports_file
from tlutflow.runs.output import parse_output
from tlutflow.tests.helpers import TOP, InFolder, flow, needs
from tlutflow.tests.test_build import NEEDS_TLUT
from tlutflow.text import read_text
from tlutflow.tools import ABC, ICARUS, ICARUS_PLAYER, YOSYS, find, run

DESIGNS = f"{TOP}/tlutflow/tests/designs"
# Each design, and how it is built here: K, and the preparations that are tried.
BUILDS = {
    "oscillator.v": ("4", "raw", "map"),
    "interleaver.v": ("5", "g1"),
    "transposed.v": ("6", "raw"),
    "sorter.sv": ("4", "bm"),
    "sender.v": ("6", "dg1"),
    "knob.v": ("5", "map", "dc2"),
}
# Signals that are rarely 1, so that the designs do more than start, and some that change seldom.
RARE = {"rst", "first", "hold", "zero"}
SLOW = {"switches"}
Event = tuple[str, dict[str, int]]


def events_of(inputs: list[Bus], parameters: list[Bus], sets: int, cycles: int, seed: int) -> list[Event]:
    """Drawn events: so many times a set of all parameters, and cycles after it. An input keeps its value now and then."""
    random = Random(seed)
    events: list[Event] = []
    values = {bus.name: 0 for bus in inputs}
    for number in range(sets):
        if number:
            events.append(("set", {bus.name: random.below(1 << bus.width) for bus in parameters}))
        for place in range(cycles):
            for bus in inputs:
                if bus.name in RARE:
                    values[bus.name] = int(random.below(23) == 0)
                elif random.below(6) == 0 if bus.name in SLOW else random.below(3):
                    values[bus.name] = random.below(1 << bus.width)
            events.append(("cycle", dict(values)))
    return events


def bench_of(top: str, ports: dict[str, Bus], outputs: list[str], start: dict[str, int], events: list[Event]) -> str:
    """A testbench of the source that plays events, and prints the outputs before each edge of the clock."""
    declared = [f"    {'wire' if name in outputs else 'reg'} [{bus.width - 1}:0] {name}{'' if name in outputs else f' = {start.get(name, 0)}'};" for name, bus in ports.items()]
    lines = []
    for word, values in events:
        lines += [f"        {name} = {value};" for name, value in values.items()]
        if word == "cycle":
            lines.append(f'        #4 $display("{" ".join(["%b"] * len(outputs))}", {", ".join(outputs)}); #1 clk = 1; #5 clk = 0;')
    connected = ", ".join(f".{name}({name})" for name in ports)
    return "\n".join([f"module bench;\n{chr(10).join(declared)}\n    {top} it ({connected});\n    initial begin", *lines, "    end\nendmodule\n"])


def played_by_icarus(source: str, bench: str, folder: str) -> list[list[str]]:
    """The outputs of each cycle, each as binary digits."""
    with open(f"{folder}/source_bench.v", "w", encoding="utf-8") as file:
        file.write(bench)
    ran = run([find(ICARUS) or "", "-g2012", "-o", f"{folder}/source.vvp", source, f"{folder}/source_bench.v"])
    assert ran.returncode == 0, ran.stderr
    return [line.split() for line in run([find(ICARUS_PLAYER) or "", f"{folder}/source.vvp"]).stdout.splitlines()]


class Design:
    """A design that was built in a folder: its ports, and its parameters' initial values."""

    def __init__(self, source: str, folder: str):
        self.top, self.source, self.folder = os.path.basename(source).rsplit(".", 1)[0], source, folder
        self.buses = {bus["name"]: bus["direction"] for bus in json.loads(read_text(self.path(".ports.json")))["ports"]}
        ports = read_ports_file(self.path(".ports.json"))
        self.ports = {name: ports.buses[name] for name in self.buses}
        listed = dict(line.split() for line in read_text(self.path(".par")).splitlines())
        self.parameters = [bus for bus in self.ports.values() if bus.nets[0] in listed]
        self.start = {bus.name: sum(int(listed[net]) << place for place, net in enumerate(bus.nets)) for bus in self.parameters}
        self.outputs = [name for name, direction in self.buses.items() if direction == "output"]
        self.inputs = [bus for name, bus in self.ports.items() if self.buses[name] == "input" and bus not in self.parameters and name != "clk"]

    def path(self, end: str) -> str:
        """A file of the build."""
        return f"{self.folder}/{self.top}{end}"

    def wanted(self, events: list[Event]) -> list[str]:
        """The outputs' digits of each cycle in the netlist's order, as Icarus plays the source."""
        bench = bench_of(self.top, self.ports, self.outputs, self.start, events)
        order = read_library(self.path(".blif")).main.outputs
        found = []
        for row in played_by_icarus(self.source, bench, self.folder):
            digits = {net: digit for name, text in zip(self.outputs, row) for net, digit in zip(self.ports[name].nets, reversed(text))}
            found.append("".join(digits[net] for net in order))
        return found


def text_of(events: list[Event]) -> str:
    """Events as a script with values of buses."""
    return "".join(" ".join([word, *(f"{name}={value}" for name, value in values.items())]) + "\n" for word, values in events)


class Designs(InFolder):
    def design(self, name: str, k: str, only: tuple[str, ...]) -> Design:
        """The netlist of a design, prepared in one of these ways."""
        words = ("verilog", f"{DESIGNS}/{name}", "--top", name.rsplit(".", 1)[0], "--k", k, *(word for it in only for word in ("--only", it)), "-j", "2")
        ran = flow(*words, "--out", self.folder)
        self.assertEqual((ran.returncode, "is left out" in ran.stderr), (0, False), ran.stderr)
        return Design(f"{DESIGNS}/{name}", self.folder)

    def compare(self, design: Design, events: list[Event], printed: str) -> None:
        """What a run printed for events, against the source as Icarus plays it."""
        played = [it.outputs for it in parse_output(printed, "run").events if it.word == "cycle"]
        self.assertEqual(played, design.wanted(events))
        self.assertGreater(sum(before != after for before, after in zip(played, played[1:])), 40, "the outputs hardly change")

    @needs(ABC, YOSYS, ICARUS, ICARUS_PLAYER)
    @NEEDS_TLUT
    def test_cycle_by_cycle(self):
        """Twelve sets of parameters of each design, under drawn inputs: the run's outputs are those of the source."""
        for seed, (name, (k, *only)) in enumerate(BUILDS.items(), 1):
            with self.subTest(name):
                design = self.design(name, k, tuple(only))
                events = events_of(design.inputs, design.parameters, 12, 30, seed)
                files = design.path(".blif"), design.path(".par")
                script = self.put("events.scr", flow("script", *files, given=text_of(events)).stdout)
                ran = run([tools.tlut(None), "run", k, *files, script, "0", "0"])
                self.assertEqual(ran.returncode, 0, ran.stderr)
                self.compare(design, events, ran.stdout)

    @needs(ABC, YOSYS, ICARUS, ICARUS_PLAYER)
    @NEEDS_TLUT
    def test_a_build_plays_values_of_buses(self):
        """A script with values of buses goes to `build` itself, whose Verilog plays it too."""
        design = self.design("oscillator.v", "4", ("raw",))
        events = events_of(design.inputs, design.parameters, 3, 60, 1)
        files, out = (design.path(".blif"), design.path(".par")), f"{self.folder}/made"
        words = ("build", *files, "--quick", "--k", "4", "--out", out, "--script", self.put("run.txt", text_of(events)))
        ran = flow(*words, "--states", "--signed", "phase", "--hex")
        self.assertEqual(ran.returncode, 0, ran.stderr)
        self.assertIn("checked: the Verilog plays the script as the run did", ran.stdout)
        self.compare(design, events, read_text(f"{out}/oscillator_run.txt"))
        page = read_text(f"{out}/index.html")
        self.assertRegex(page, r"cycle wave=-?0x[0-9a-f]+ phase=-0x[0-9a-f]+ wrapped=0x[01] \| ")
        self.assertIn(f"flow script {out}/oscillator.blif {out}/oscillator.par &lt; ", page)
        for line, part in (("set speed=1", "speed is none of the parameters; these are: step[7:0], start[7:0], shape[1:0]"), ("cycle 111", "cycle 111 has 3 digits, and the inputs have 2: rst, hold")):
            self.put("run.txt", f"cycle rst=1\n{line}\n")
            self.assertIn(f"line 2 of {self.folder}/run.txt: {part}", flow(*words).stderr.splitlines()[-1])


if __name__ == "__main__":
    unittest.main()
