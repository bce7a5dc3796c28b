#!/usr/bin/env python3
"""Reads the written netlists of the examples with Yosys and ABC, and shows with ABC that they are the source circuits.

Outside the gate: `python3 examples/interop.py [PROGRAM]`, after a first call of ./tlut has built crates/tlut/out/tlut, where `yosys`
and `yosys-abc` (or `berkeley-abc`) are installed; where they are not, it says so and tries nothing.

For each netlist of examples/ that lists parameters, at tables of 4 and of 6 inputs:
- Yosys reads both files (`read_blif -sop`) and checks them, and ABC reads the specialised one;
- ABC shows the specialised netlist equal to the source with constants for its parameters (`cec`, with latches `dsec`);
- ABC shows the template with the bits of `image` as constants equal to the source under each of some values of its parameters;
- Yosys reads the graph that is written in AIGER's form, and ABC shows it equal to the source.
ABC doesn't read a cover with inputs and no rows, so its files go through `abc_form`, which writes it without its inputs.
The last line is `N passed, M failed`, and the exit status is 1 where M isn't 0.
"""
import os
import random
import shutil
import subprocess
import sys
import tempfile

HERE = os.path.dirname(os.path.realpath(__file__))
TOP = os.path.dirname(os.path.dirname(os.path.dirname(HERE)))
PROGRAM = os.path.abspath(sys.argv[1]) if len(sys.argv) > 1 else f"{TOP}/crates/tlut/out/tlut"
YOSYS = shutil.which("yosys")
ABC = shutil.which("yosys-abc") or shutil.which("berkeley-abc")

# The examples with their lists.
EXAMPLES = [("mux", "mux.par"), ("and7", "tuned.par"), ("fir", "fir.par"), ("matcher", "matcher.par"), ("coder", "coder.par")]


def logical_lines(text):
    """The lines of a netlist without comments, continued ones joined."""
    joined = "\n".join(line.split("#")[0].rstrip() for line in text.split("\n")).replace("\\\n", " ")
    return [line for line in joined.split("\n") if line.strip()]


def abc_form(text):
    """A netlist in which each cover with inputs and no rows is written without its inputs."""
    lines = [*logical_lines(text), "."]
    bare = [f".names {line.split()[-1]}" if line.startswith(".names") and after.startswith(".") else line for line, after in zip(lines, lines[1:])]
    return "\n".join([*bare, ""])


def with_constants(text, values):
    """A netlist whose main model has constants in the place of some inputs."""
    lines = logical_lines(text)
    inputs = [f".inputs {' '.join(name for name in line.split()[1:] if name not in values)}" if line.startswith(".inputs") else line for line in lines]
    end = inputs.index(".end")
    constants = [row for name, bit in values.items() for row in ([f".names {name}", "1"] if bit else [f".names {name}"])]
    return "\n".join([*inputs[:end], *constants, *inputs[end:], ""])


def run(words, folder):
    """What a command prints, on both outputs."""
    return subprocess.run(words, cwd=folder, stdout=subprocess.PIPE, stderr=subprocess.STDOUT, text=True).stdout


class Case:
    """A source circuit with the values of its parameters, in a folder of its own."""

    def __init__(self, folder, name, params, size):
        self.folder, self.title = folder, f"{name} {size}"
        data = f"{HERE}/{name}"
        self.source = open(f"{data}/{name}.blif").read()
        self.listed = {line.split()[0]: int(line.split()[1]) for line in logical_lines(open(f"{data}/{params}").read())}
        self.has_latches = ".latch" in self.source
        self.printed = [
            run([PROGRAM, "spec", size, f"{data}/{name}.blif", f"{data}/{params}", "spec.blif"], folder),
            run([PROGRAM, "map", size, f"{data}/{name}.blif", f"{data}/{params}", "template.blif", "bits.ppc"], folder),
        ]
        run([PROGRAM, "graph", f"{data}/{name}.blif", f"{data}/{params}", "graph.aag"], folder)

    def put(self, name, text):
        """Writes a file in the form that ABC reads."""
        with open(f"{self.folder}/{name}", "w") as file:
            file.write(abc_form(text))

    def read(self, name):
        """A file's text."""
        return open(f"{self.folder}/{name}").read()

    def is_read(self, name):
        """Whether Yosys reads a file and finds nothing wrong."""
        told = run([YOSYS, "-q", "-p", f"read_blif -sop {name}; hierarchy -check -auto-top; check -assert"], self.folder)
        return "ERROR" not in told

    def is_same(self, text, values):
        """Whether ABC shows a netlist equal to the source under values of the parameters."""
        self.put("here.blif", text)
        self.put("there.blif", with_constants(self.source, values))
        told = run([ABC, "-c", f"{'dsec' if self.has_latches else 'cec'} here.blif there.blif"], self.folder)
        return "are equivalent" in told

    def graph(self):
        """The netlist that Yosys makes of the graph; its clock is an input of the source that the graph doesn't have."""
        run([YOSYS, "-q", "-p", "read_aiger -clk_name clk -module_name graph graph.aag; write_blif graph.blif"], self.folder)
        return self.read("graph.blif")

    def configured(self, values):
        """The template with the configuration of these values as constants: its bits are those that `bits` shows."""
        settings = " ".join(f"{name}={bit}" for name, bit in values.items())
        with open(f"{self.folder}/one.scr", "w") as file:
            file.write(f"set {settings}\nimage\n")
        image = run([PROGRAM, "bits", "bits.ppc", "one.scr"], self.folder).split()[-1]
        template = self.read("template.blif")
        names = [name for line in template.split("\n") if line.startswith(".inputs") for name in line.split()[1:]]
        own = names[len(names) - len(image):]
        return with_constants(template, {name: int(bit) for name, bit in zip(own, image)})


def results(case):
    """The title and the outcome of each thing that is shown of a case."""
    chance = random.Random(case.title)
    yield "prints one header", case.printed[0] == case.printed[1] and case.printed[0].startswith("luts ")
    yield "the specialised netlist is read", case.is_read("spec.blif")
    yield "the template is read", case.is_read("template.blif")
    yield "the specialised netlist is the source", case.is_same(case.read("spec.blif"), case.listed)
    for _ in range(3):
        values = {name: chance.randrange(2) for name in case.listed}
        yield "the template is the source", case.is_same(case.configured(values), values)


    yield "the graph is the source", case.is_same(case.graph(), {})


def main():
    if not YOSYS or not ABC:
        print("Yosys and ABC aren't there: nothing was tried")
        return 0
    passed = failed = 0
    for name, params in EXAMPLES:
        for size in "46":
            with tempfile.TemporaryDirectory() as folder:
                case = Case(folder, name, params, size)
                for title, outcome in results(case):
                    print(f"{case.title}: {title}: {'yes' if outcome else 'NO'}")
                    passed, failed = passed + outcome, failed + (not outcome)
    print(f"{passed} passed, {failed} failed")
    return 1 if failed else 0


if __name__ == "__main__":
    sys.exit(main())
