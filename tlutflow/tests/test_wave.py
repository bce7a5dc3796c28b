"""Waveforms: a small reader of dumps, and what stands in them."""

import re
import unittest

from tlutflow.runs.waveform import code_of
from tlutflow.tests.helpers import EXAMPLES, InFolder, example, flow

FIR = f"{EXAMPLES}/fir/fir.blif", f"{EXAMPLES}/fir/fir.par"


def read_dump(text: str, times: list[int]) -> list[dict[str, str]]:
    """What each variable shows at some times, by its scope and name."""
    head, body = text.split("$enddefinitions $end\n")
    names, scopes = {}, []
    for line in head.splitlines():
        words = line.split()
        if words[0] == "$scope":
            scopes.append(words[2])
        elif words[0] == "$upscope":
            scopes.pop()
        elif words[0] == "$var":
            names[words[3]] = f"{scopes[-1]}.{words[4]}"
    shown, found, waiting = {}, [], list(times)
    for line in [*body.splitlines(), "#1000000000"]:
        if line.startswith("#"):
            while waiting and int(line[1:]) > waiting[0]:
                found.append(dict(shown))
                waiting.pop(0)
        elif line.startswith("b"):
            digits, code = line[1:].split(" ")
            shown[names[code]] = digits
        else:
            shown[names[line[1:]]] = line[0]
    return found


class Waves(InFolder):
    def wave(self, script: str, printed: str) -> str:
        ran = flow("wave", *FIR, f"{EXAMPLES}/fir/{script}", given=printed)
        self.assertEqual(ran.returncode, 0, ran.stderr)
        return ran.stdout

    def test_the_filter(self):
        text = self.wave("changing.scr", example("fir/expected_changing.txt"))
        first, third, change, fifth = read_dump(text, [4, 24, 34, 44])
        self.assertEqual(first, {"inputs.x": "001", "parameters.c0": "101", "parameters.c1": "011", "parameters.c2": "110", "outputs.y": "000101",
                                 "states.x1": "000", "states.x2": "000", "run.clock": "0", "run.bits_written": "0"})
        self.assertEqual((third["outputs.y"], third["states.x1"], third["states.x2"], third["run.clock"]), ("011011", "010", "001", "1"))
        self.assertEqual((change["outputs.y"], change["parameters.c1"], change["run.bits_written"]), ("xxxxxx", "111", "1110"))
        self.assertEqual((fifth["outputs.y"], fifth["inputs.x"], fifth["run.bits_written"], fifth["run.clock"]), ("110101", "100", "0", "0"))

    def test_edges(self):
        """The clock rises where the slot of a cycle ends."""
        text = self.wave("ten.scr", example("fir/expected.txt"))
        rises = re.findall(r"#(\d+)\n1", text)
        self.assertEqual([int(time) for time in rises], list(range(10, 110, 10)))
        self.assertTrue(text.endswith("#110\n"))

    def test_a_run_that_a_fault_ended(self):
        """What there is is shown, and the status says that it isn't all."""
        printed = "\n".join(example("fir/expected.txt").splitlines()[:3]) + "\n"
        ran = flow("wave", *FIR, f"{EXAMPLES}/fir/ten.scr", given=printed)
        self.assertTrue(ran.stdout.endswith("#30\n"))
        self.assert_fault(ran, "the output ends at event 2 of 10")

    def test_a_script_at_a_limited_rate(self):
        """While ticks wait the outputs are x and the clock stays."""
        text = self.wave("pace.scr", example("fir/expected_pace4.txt"))
        third, ask, wait, step = read_dump(text, [24, 34, 44, 84])
        self.assertEqual((third["outputs.y"], third["parameters.c1"]), ("011011", "011"))
        self.assertEqual((ask["parameters.c1"], ask["outputs.y"]), ("111", "xxxxxx"))
        self.assertEqual((wait["outputs.y"], wait["run.clock"], wait["run.bits_written"], wait["inputs.x"]), ("xxxxxx", "0", "100", "100"))
        self.assertEqual((step["outputs.y"], step["run.bits_written"], step["inputs.x"]), ("110101", "0", "100"))

    def test_faults(self):
        script = f"{EXAMPLES}/fir/ten.scr"
        self.assert_fault(flow("wave", *FIR, script, given="set 0\n"), "it belongs to another script")
        self.assert_fault(flow("wave", *FIR, script, given="cycle 1 1\n"), "doesn't fit this netlist")
        self.assert_fault(flow("wave", *FIR, script, given=example("fir/expected.txt") + "scrub 0\n"), "11 lines for 10 events")


class Codes(unittest.TestCase):
    def test_each_is_another(self):
        codes = [code_of(number) for number in range(20000)]
        self.assertEqual(len(set(codes)), 20000)
        self.assertEqual((codes[0], codes[93], len(codes[94])), ("!", "~", 2))
