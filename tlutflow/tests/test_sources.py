"""Netlists in AIGER's ASCII form in every subcommand, and runs that are compared with a player of their source."""

import unittest

from tlutflow.aiger import parse_aiger
from tlutflow.netlist import parse_library
from tlutflow.runs.source_player import SourcePlayer
from tlutflow.tests.helpers import EXAMPLES, MUX, InFolder, example, flow, needs
from tlutflow.tools import ABC

VOTE = f"{EXAMPLES}/vote/vote.aag", f"{EXAMPLES}/vote/vote.par"
# A latch that starts at 1 and is complemented, an output that is 0, and one that is an input.
SMALL = "aag 4 2 1 3 1\n2\n4\n6 9 1\n6\n0\n2\n8 6 5\ni0 a\no2 same\nc\nend\n"


class Aiger(InFolder):
    def test_small(self):
        library = parse_aiger(SMALL, "n.aag")
        self.assertEqual((library.main.inputs, library.main.outputs), (["a", "i1"], ["o0", "o1", "same"]))
        player = SourcePlayer(library, {}, ["a", "i1"])
        # The latch is 1, and its next state is not (latch and not i1).
        self.assertEqual([player.cycle({"a": 1, "i1": bit}) for bit in (0, 1, 1)], [("101", "0"), ("001", "1"), ("101", "1")])

    def test_values(self):
        self.assertEqual(flow("params", VOTE[0], "least=3").stdout, "least[0] 1\nleast[1] 1\nleast[2] 0\n")
        self.assertEqual(flow("script", *VOTE, given="cycle a=1\nset least=1\n").stdout, "cycle 0100\nset least[0]=1 least[1]=0 least[2]=0\n")
        self.assertEqual(flow("show", *VOTE, given="cycle 1 -\n").stdout, "cycle passes=1\n")
        self.assertIn("$var wire 3", flow("wave", *VOTE, f"{EXAMPLES}/vote/votes.scr", given=example("vote/expected.txt")).stdout)

    @needs(ABC)
    def test_abc_takes_it(self):
        self.assertEqual(flow("check", VOTE[0], VOTE[0]).stdout, "equal (ABC cec)\n")

    def test_faults(self):
        for text in ("aag 1", "aag 1 1 0 0 0\n", "aag 1 1 0 0 0\nx\n", "aag 0 0 0 0 0\nq0 a\n", "aag 1 1 0 0 0\n2\n3\n"):
            self.assert_fault(flow("params", self.put("n.aag", text)), "./tlut reports what is wrong")


class Runs(InFolder):
    def check(self, name: str, script: str, printed: str, netlist: str = ""):
        files = netlist or f"{EXAMPLES}/{name}/{name}.blif"
        return flow("check", files, "--params", f"{EXAMPLES}/{name}/{name}.par", "--script", f"{EXAMPLES}/{name}/{script}.scr", given=printed)

    def test_examples(self):
        for name, script, file, part in (
            ("fir", "ten", "expected", "10 cycles, all as the source's"),
            ("fir", "changing", "expected_changing", "6 cycles before the first upset, all as the source's"),
            ("fir", "pace", "expected_pace1", "14 cycles, all as the source's"),
            ("fir", "pace", "expected_pace4", "14 cycles, all as the source's"),
            ("coder", "keys", "expected", "6 cycles before the first upset, all as the source's"),
        ):
            ran = self.check(name, script, example(f"{name}/{file}.txt"))
            if file == "expected_pace1":
                self.assertIn("all as the source's", ran.stdout, ran.stderr)
            else:
                self.assertEqual(ran.stdout, part + "\n", ran.stderr)
        self.assertEqual(self.check("vote", "votes", example("vote/expected.txt"), VOTE[0]).stdout, "7 cycles, all as the source's\n")

    def test_differences_are_told(self):
        text = example("fir/expected.txt")
        spoilt = text.replace("cycle 101", "cycle 001", 1)
        self.assertNotEqual(spoilt, text)
        self.assert_fault(self.check("fir", "ten", spoilt), "event 1 printed `cycle 001")
        self.assert_fault(self.check("fir", "ten", "".join(text.splitlines(True)[:4])), "the output ends at event 3 of 10")
        self.assert_fault(flow("check", f"{EXAMPLES}/fir/fir.blif"), "give WRITTEN")
        self.assert_fault(flow("check", f"{EXAMPLES}/fir/fir.blif", "x", "--script", "y"), "--script needs --params")

    def test_rows_that_end_in_0(self):
        library = parse_library(MUX.replace("11- 1\n0-1 1", "10- 0\n0-0 0"), "n")
        player = SourcePlayer(library, {"p": 0}, ["a", "b"])
        self.assertEqual([player.cycle({"a": a, "b": b})[0] for a, b in ((0, 0), (1, 0), (0, 1), (1, 1))], ["0", "0", "1", "1"])


if __name__ == "__main__":
    unittest.main()
