"""Values of buses: `params`, `script` and `show`."""

import unittest

from tlutflow.bus import parse_number
from tlutflow.buses import buses_of
from tlutflow.parameters import read_interface
from tlutflow.runs.script_writer import has_names
from tlutflow.tests.helpers import EXAMPLES, MUX, InFolder, example, flow

FIR = f"{EXAMPLES}/fir/fir.blif", f"{EXAMPLES}/fir/fir.par"


class Buses(unittest.TestCase):
    def test_buses(self):
        buses = buses_of(["x[1]", "en", "x[0]", "k[4]", "k[3]", "gap[0]", "gap[2]", "w", "w[0]"])
        self.assertEqual([(it.title, it.nets) for it in buses.values()][:3], [("x[1:0]", ("x[0]", "x[1]")), ("en", ("en",)), ("k[4:3]", ("k[3]", "k[4]"))])
        self.assertEqual(list(buses)[3:], ["gap[0]", "gap[2]", "w", "w[0]"])

    def test_values(self):
        bus = buses_of(["x[0]", "x[1]", "x[2]"])["x"]
        self.assertEqual(bus.digits(6), {"x[0]": 0, "x[1]": 1, "x[2]": 1})
        self.assertEqual(bus.digits(-3), {"x[0]": 1, "x[1]": 0, "x[2]": 1})
        self.assertEqual((bus.number(bus.digits(5)), bus.number(bus.digits(5), True), bus.number(bus.digits(3), True)), (5, -3, 3))

    def test_numbers(self):
        for word, value in (("18", 18), ("-3", -3), ("0x12", 18), ("0b10010", 18), ("8'h12", 18), ("8'shFF", 255), ("-4'd2", -2), ("'b1_0", 2), ("0", 0)):
            self.assertEqual(parse_number(word), value, word)
        for word in ("", "x", "0x", "1.5", "8'q1", "2'b3", "--1"):
            self.assertIsNone(parse_number(word), word)


class Params(InFolder):
    def test_list_of_the_example(self):
        ran = flow("params", FIR[0], "c0=5", "c1=0b011", "c2=0x6")
        self.assertEqual(ran.stdout, "".join(example("fir/fir.par").splitlines(True)[1:]))

    def test_single_nets_and_no_values(self):
        self.assertEqual(flow("params", FIR[0], "c0[1]=1").stdout, "c0[1] 1\n")
        self.assertEqual(flow("params", FIR[0]).stdout, "")

    def test_faults(self):
        for words, part in (
            (["c9=1"], "c9 is none of the inputs of"),
            (["c9=1"], "these are: x[2:0], c0[2:0], c1[2:0], c2[2:0]"),
            (["c0=8"], "c0[2:0] has 3 bits, so its values are -4 to 7"),
            (["c0=-5"], "-4 to 7"),
            (["c0=five"], "isn't of one of the forms"),
            (["c0"], "isn't NAME=VALUE"),
            (["c0=1", "c0[2]=1"], "already has a value on this line"),
            (["clk=1"], "clk is none of the inputs"),
        ):
            self.assert_fault(flow("params", FIR[0], *words), part)
        self.assert_fault(flow("params", f"{self.folder}/no.blif"), "No such file")
        self.assert_fault(flow("params", self.folder), "Is a directory")


class Scripts(InFolder):
    def test_digits_and_names(self):
        """A line that is a script's already stays, and later lines by name keep its digits."""
        self.assertEqual(flow("script", *FIR, given="cycle 110\nset c0[1]=1\ncycle\ncycle x=1\n").stdout, "cycle 110\nset c0[1]=1\ncycle 110\ncycle 100\n")
        for text, named in (("cycle 110\nset c0[1]=1\nimage\n", False), ("cycle x=1\n", True), ("cycle\n", True), ("set c0=1\n", True), ("set c0[0]=3\n", True), ("cycle 1\n", False)):
            self.assertEqual(has_names(text, read_interface(*FIR)), named, text)
        self.assert_fault(flow("script", *FIR, given="cycle x=1\ncycle 11\n"), "line 2 of stdin: cycle 11 has 2 digits, and the inputs have 3: x[2:0]")

    def test_script_of_the_example(self):
        events = """cycle x=1\ncycle x=2\ncycle x=3 # three\nset c1=7\ncycle x=4\ncycle x=-3\nset c0=2 c1=4 c2=1\n
cycle x=6\nupset 474\ncycle x=7\nset c2[0]=1\nscrub\ncycle x=3\nimage\n"""
        wanted = [line for line in example("fir/changing.scr").splitlines() if not line.startswith("#")]
        # The example sets one bit of c1, and ends otherwise.
        wanted[3] = "set c1[0]=1 c1[1]=1 c1[2]=1"
        self.assertEqual(flow("script", *FIR, given=events).stdout.splitlines(), wanted[:-3] + ["image"])

    def test_events_at_a_limited_rate(self):
        events = "tick x=1\nask c1=7\ntick\ntick x=2\n"
        self.assertEqual(flow("script", *FIR, given=events).stdout, "tick 100\nask c1[0]=1 c1[1]=1 c1[2]=1\ntick 100\ntick 010\n")
        self.assert_fault(flow("script", *FIR, given="ask\n"), "ask takes one NAME=VALUE or more")

    def test_kept_values_and_no_inputs(self):
        netlist, params = self.put("n.blif", MUX), self.put("n.par", "p 0\n")
        self.assertEqual(flow("script", netlist, params, given="cycle\ncycle b=1\ncycle a=1\n").stdout, "cycle 00\ncycle 01\ncycle 11\n")
        every = self.put("all.par", "p 0\na 1\nb 1\n")
        self.assertEqual(flow("script", netlist, every, given="cycle\nset a=0 b=0\n").stdout, "cycle -\nset a=0 b=0\n")

    def test_faults(self):
        for event, part in (
            ("cycle z=1", "line 1 of stdin: z is none of the inputs; these are: x[2:0]"),
            ("set z=1", "z is none of the parameters; these are: c0[2:0], c1[2:0], c2[2:0]"),
            ("set x=1", "x is an input: use cycle"),
            ("ask x[1]=1", "x[1] is an input: use tick"),
            ("cycle c0=1", "c0 is a parameter: use set"),
            ("tick c0[1]=1", "c0[1] is a parameter: use ask"),
            ("cycle clk=1", "clk is the clock: each cycle and tick has one edge of it"),
            ("set", "set takes one NAME=VALUE or more"),
            ("go", "go isn't an event"),
            ("upset x", "upset takes one address"),
            ("scrub 1", "scrub takes no arguments"),
        ):
            self.assert_fault(flow("script", *FIR, given=event + "\n"), part)


class Shown(InFolder):
    def test_outputs_as_numbers(self):
        shown = flow("show", *FIR, given=example("fir/expected_changing.txt")).stdout.splitlines()
        # 5 * 1; 5 * 2 + 3 * 1; 5 * 3 + 3 * 2 + 6 * 1; a change; 5 * 4 + 7 * 3 + 6 * 2.
        self.assertEqual(shown[:4], ["luts 64 bits 484 depth 5", "cycle y=5", "cycle y=13", "cycle y=27"])
        self.assertEqual(shown[4][:13], "set 14 145=0 ")
        self.assertEqual(shown[5], "cycle y=53")
        self.assertIn("upset 474=0", shown)

    def test_lines_at_a_limited_rate(self):
        given = "ask 3\nwait 2 4=1 9=0\nwait 1 12=1\ncycle 101000 100110\n"
        self.assertEqual(flow("show", *FIR, given=given).stdout, "ask 3\nwait 2 4=1 9=0\nwait 1 12=1\ncycle y=5\n")
        self.assert_fault(flow("show", *FIR, given="wait 2 4=1\n"), "line 1 isn't a line that tlut prints")

    def test_states_signs_and_hexadecimal_digits(self):
        given = "cycle 101000 100110\n"
        self.assertEqual(flow("show", *FIR, "--states", given=given).stdout, "cycle y=5 | x1=1 x2=3\n")
        self.assertEqual(flow("show", *FIR, "--hex", "--signed", "x2", "--states", given="cycle 001111 100101\n").stdout, "cycle y=0x3c | x1=0x1 x2=-0x3\n")

    def test_wide_buses(self):
        """More than 32 digits are shown in hexadecimal, of a signed bus too."""
        names = [f"w[{place}]" for place in range(33)]
        covers = "".join(f".names a {name}\n1 1\n" for name in names)
        files = self.put("n.blif", f".model n\n.inputs a\n.outputs {' '.join(names)} z\n{covers}.names a z\n1 1\n.end\n"), self.put("n.par", "")
        given = f"cycle {'1' * 34} -\n"
        self.assertEqual(flow("show", *files, given=given).stdout, "cycle w=0x1ffffffff z=1\n")
        self.assertEqual(flow("show", *files, "--signed", "w", given=given).stdout, "cycle w=-0x1 z=1\n")

    def test_output_that_ends_early(self):
        text = example("fir/expected_changing.txt")
        script = f"{EXAMPLES}/fir/changing.scr"
        self.assertEqual(flow("show", *FIR, script, given=text).returncode, 0)
        ran = flow("show", *FIR, script, given="".join(text.splitlines(True)[:5]))
        self.assert_fault(ran, "the output ends at event 4 of 16")
        self.assertEqual(ran.stdout.splitlines()[1], "cycle y=5")
        self.assert_fault(flow("show", *FIR, given=""), "stdin is empty")
        self.assert_fault(flow("show", *FIR, given=text[:-1]), "ends within a line")
        self.assert_fault(flow("show", *FIR, f"{EXAMPLES}/fir/ten.scr", given=text), "it belongs to another script")

    def test_faults(self):
        self.assert_fault(flow("show", *FIR, given="cycle 1 -\n"), "doesn't fit this netlist, which has 6 outputs and 6 latches")
        self.assert_fault(flow("show", *FIR, given="tlut: out of memory\n"), "line 1 isn't a line that tlut prints")
        self.assert_fault(flow("show", *FIR, "--signed", "z"), "the buses shown are y[5:0]")
