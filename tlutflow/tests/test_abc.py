"""ABC: the form that it reads, `check` and `compare`."""

import os
import stat
import time
import unittest

from tlutflow.abc_form import abc_text, with_functions
from tlutflow.mappings import Sizes, sizes_of
from tlutflow.netlist import parse_library
from tlutflow.pack import Pack, parse_pack
from tlutflow.tests.helpers import DATA, EXAMPLES, MUX, MUX_PACK, MUX_TEMPLATE, InFolder, flow, needs
from tlutflow.tools import ABC

# Stands for the program: `map` tells the same header for every list.
FAKE = "#!/bin/sh\n[ $1 = --compact ] && shift\n[ $2 = 6 ] && { echo 'tlut: n.blif: L4 NodeCuts node 9' >&2; exit 4; }\necho luts 1 bits 4 depth 1\n"
# And for one that has one rule alone.
ONE_RULE = "#!/bin/sh\n[ $1 = --compact ] && exit 2\necho luts 1 bits 4 depth 1\n"


class Form(unittest.TestCase):
    def test_covers_without_rows_latches_and_clocks(self):
        text = ".model m\n.inputs a b\n.clock c\n.outputs y\n.names a b y\n.names one\n1\n.latch a q re c 3\n.latch a r 1\n.end"
        lines = abc_text(parse_library(text, "n"), {"b": 1, "c": 0}).splitlines()
        self.assertEqual(lines, [".model m", ".inputs a", ".outputs y", ".names y", ".names one", "1", ".names b", "1", ".names c",
                                 ".latch a q re c 0", ".latch a r 1", ".end"])

    def test_bits_as_functions(self):
        lines = with_functions(parse_library(MUX_TEMPLATE, "t"), parse_pack(MUX_PACK, "p"), "p").splitlines()
        self.assertEqual(lines[1], ".inputs a b p")
        self.assertEqual(lines[-8:], [".names _c0", ".names p _c1", "1 1", ".names p _c2", "0 1", ".names _c3", "1", ".end"])

    def test_many_bits_take_linear_time(self):
        """One with 20,000 bits takes a part of a second; looking for each input among all bits took a minute."""
        rooms = [[f"_c{16 * number + place}" for place in range(16)] for number in range(1250)]
        lines = [".model m", ".inputs a b c d", *(" ".join([".inputs", *room]) for room in rooms), ".outputs y"]
        lines += [f".names a b c d {' '.join(room)} n{number}\n" + "0" * 4 + "1" + "-" * 15 + " 1" for number, room in enumerate(rooms)]
        library = parse_library("\n".join([*lines, ".names n0 y", "1 1", ".end"]), "t")
        begun = time.process_time()
        made = with_functions(library, Pack({}, [], [1] * 20000), "p")
        self.assertLess(time.process_time() - begun, 5)
        self.assertEqual(made.splitlines()[1], ".inputs a b c d")

    def test_sizes(self):
        text = ".model m\n.inputs a b c\n.outputs y z k\n.names a b t\n11 1\n.names t c a u\n111 1\n.names u y\n1 1\n.names u z\n0 1\n.names k\n1\n.end"
        self.assertEqual(sizes_of(parse_library(text, "n")), Sizes(3, 3, 4 + 8 + 2))


class Check(InFolder):
    @needs(ABC)
    def test_templates_under_all_values(self):
        for name, latches in (("fir", "9 parameters (ABC cec, latch by latch)"), ("matcher", "8 parameters (ABC cec, latch by latch)"), ("coder", "8 parameters (ABC cec, latch by latch)")):
            ran = flow("check", f"{EXAMPLES}/{name}/{name}.blif", f"{DATA}/{name}_t.blif", "--pack", f"{DATA}/{name}.ppc")
            self.assertEqual(ran.stdout, f"equal under all values of {latches}\n", ran.stderr)

    @needs(ABC)
    def test_a_wrong_bit_is_found(self):
        source, template = self.put("n.blif", MUX), self.put("t.blif", MUX_TEMPLATE)
        ran = flow("check", source, template, "--pack", self.put("p.ppc", MUX_PACK))
        self.assertEqual(ran.stdout, "equal under all values of 1 parameter (ABC cec)\n", ran.stderr)
        self.assert_fault(flow("check", source, template, "--pack", self.put("q.ppc", MUX_PACK[:-1] + b"\0")), "differs from")

    @needs(ABC)
    def test_specialised(self):
        written = self.put("s.blif", ".model mux\n.inputs a b\n.outputs y\n.names a b _n13\n01 1\n11 1\n.names _n13 y\n1 1\n.end\n")
        source = self.put("n.blif", MUX)
        self.assertEqual(flow("check", source, written, "--params", self.put("n.par", "p 0\n")).stdout, "equal under the listed values (ABC cec)\n")
        self.assert_fault(flow("check", source, written, "--params", self.put("m.par", "p 1\n")), "differs from")
        self.assert_fault(flow("check", source, written), "p is an input of")
        self.assertEqual(flow("check", source, source).stdout, "equal (ABC cec)\n")

    def test_the_limit_is_of_processor_time(self):
        """So a comparison is decided or not whatever else runs: one that sleeps isn't stopped, and one that works is."""
        source = self.put("n.blif", MUX)
        for body, part in (("while :; do :; done", "ABC was stopped after 1 seconds of processor time"), ("sleep 2; echo Networks are equivalent.", "")):
            os.chmod(self.put("yosys-abc", f"#!/bin/sh\n{body}\n"), stat.S_IRWXU)
            ran = flow("check", source, source, "--seconds", "1", PATH=f"{self.folder}:{os.environ['PATH']}")
            if part:
                self.assert_fault(ran, part)
            else:
                self.assertEqual(ran.stdout, "equal (ABC cec)\n", ran.stderr)

    def test_without_abc(self):
        source = self.put("n.blif", MUX)
        self.assert_fault(flow("check", source, source, PATH=self.folder), "ABC (yosys-abc or berkeley-abc) isn't on the PATH")


class Compare(InFolder):
    def fake(self, text: str = FAKE) -> str:
        path = self.put("tlut", text)
        os.chmod(path, stat.S_IRWXU)
        return path

    @needs(ABC)
    def test_table(self):
        words = ("compare", self.put("n.blif", MUX), self.put("n.par", "p 0\n"), "--tlut", self.fake(), "--k", "3", "--k", "6")
        ran = flow(*words)
        lines = [line.split() for line in ran.stdout.splitlines()]
        self.assertEqual(lines[0], ["n.blif,", "1", "parameter"], ran.stderr)
        self.assertEqual(lines[3], ["3", *["1", "1", "4"] * 3, "1", "1", "8", "1", "1", "8"])
        self.assertEqual(lines[4], ["6", "L4", "L4", "L4", "1", "1", "8", "1", "1", "8"])

    @needs(ABC)
    def test_a_program_of_one_rule(self):
        words = ("compare", self.put("n.blif", MUX), self.put("n.par", "p 0\n"), "--tlut", self.fake(ONE_RULE), "--k", "3")
        self.assertEqual(flow(*words).stdout.splitlines()[3].split()[:5], ["3", "1", "1", "4", "-"])

    @needs(ABC)
    def test_faults(self):
        self.assert_fault(flow("compare", f"{self.folder}/no", f"{self.folder}/no.par", "--tlut", self.fake()), "no such file")
        netlist, params = self.put("n.blif", MUX), self.put("n.par", "")
        self.assert_fault(flow("compare", netlist, params, "--tlut", f"{self.folder}/none"), "name tlut by --tlut or the environment variable TLUT")
