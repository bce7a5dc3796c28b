"""What can't be done is one line: inputs out of the usual, a full disk, an interrupt at once, and mistakes of the companion itself."""

import errno
import os
import re
import subprocess
import sys
from unittest import mock

from tlutflow.commands import report
from tlutflow.fault_line import parse_fault
from tlutflow.steps import Steps
from tlutflow.tests.helpers import MUX, MUX_PACK, MUX_TEMPLATE, TOP, InFolder, flow, heed_signals, needs
from tlutflow.tools import YOSYS

DIGITS = "9" * 5000
# Interrupts this very program when it imports a module.
INTERRUPT = """import os, signal, sys
class Finder:
    def find_spec(self, name, path=None, target=None):
        if name == os.environ["INTERRUPTED"]:
            os.kill(os.getpid(), signal.SIGINT)
sys.meta_path.insert(0, Finder())
"""


class Inputs(InFolder):
    def test_long_numbers(self):
        """An index of so many digits is a part of a name, and any other such number is refused."""
        netlist = self.put("n.blif", f".model n\n.inputs a[{DIGITS}] b\n.outputs y\n.names a[{DIGITS}] b y\n11 1\n.end\n")
        params = self.put("n.par", "b 0\n")
        self.assertEqual(flow("script", netlist, params, given=f"cycle a[{DIGITS}]=1\n").stdout, "cycle 1\n")
        for line in (f"luts 1 bits {DIGITS} depth 1", f"upset {DIGITS}=0", f"set {DIGITS}", f"set 1 {DIGITS}=1"):
            self.assert_fault(flow("show", netlist, params, given=f"{line}\n"), "isn't a line that tlut prints")
        self.assert_fault(flow("show", netlist, params, self.put("n.scr", f"upset {DIGITS}\n"), given="upset 3=0\n"), "line 1 isn't an event")
        self.assertIsNone(parse_fault(f"tlut: n.blif: F1 Word line {DIGITS} x").line)

    def test_an_upset_without_an_address(self):
        words = (self.put("n.blif", MUX), self.put("n.par", "p 0\n"), self.put("n.scr", "upset\n"))
        self.assert_fault(flow("show", *words, given="upset 3=0\n"), "line 1 isn't an event")

    def test_a_template_that_reads_what_nothing_drives(self):
        pack = self.put("p.ppc", MUX_PACK)
        for text, part in (
            (MUX_TEMPLATE.replace("a b _c0 _c1 _c2 _c3 _n13", "a other _c0 _c1 _c2 _c3 _n13"), "the LUT _n13 reads other"),
            (MUX_TEMPLATE.replace("_n13 y", "other y"), "nothing drives other"),
            (MUX_TEMPLATE.replace("_n13 y\n1 1", "y\n1"), "nothing drives y"),
        ):
            template = self.put("t.blif", text)
            for words in (("report",), ("draw",), ("hdl", "--target", "xilinx"), ("hdl",)):
                self.assert_fault(flow(words[0], template, pack, *words[1:]), part)

    def test_records_that_are_nested(self):
        nested = "[" * 100_000
        for text in (nested, '{"s": {"key": "", "files": 3}}'):
            self.put("build.json", text)
            self.assertNotIn("result", Steps(self.folder, "flow build").known)
        self.put("n.ports.json", nested)
        self.assert_fault(flow("params", self.put("n.blif", MUX), "p=1"), "`flow verilog` didn't write it")


class FullDisks(InFolder):
    def test_the_output(self):
        with open("/dev/full", "wb") as full:
            ran = subprocess.run([sys.executable, f"{TOP}/flow", "params", self.put("n.blif", MUX), "p=1"], stdout=full, stderr=subprocess.PIPE, text=True, check=False)
        self.assertEqual((ran.returncode, ran.stderr), (1, "flow params: a temporary file, or the output: No space left on device\n"))

    def test_a_temporary_file(self):
        source, full = self.put("n.blif", MUX), OSError(errno.ENOSPC, os.strerror(errno.ENOSPC))
        path = self.put("abc", "#!/bin/sh\n")
        os.chmod(path, 0o755)
        with mock.patch("tempfile.TemporaryFile", side_effect=full):
            self.assert_fault(flow("check", source, source, PATH=self.folder), "No space left on device")
        with mock.patch("tempfile.mkdtemp", side_effect=full):
            self.assert_fault(flow("check", source, source, PATH=self.folder), "no temporary folder can be made: No space left on device")

    @needs(YOSYS)
    def test_half_a_design(self):
        self.put("top.v", "module top (input a, output y); assign y = ~a; endmodule\n")
        with mock.patch("tlutflow.verilog.design_json.read_text", lambda path: '{"modules'):
            self.assert_fault(flow("verilog", "--quick", "top.v", "--top", "top", folder=self.folder), "Yosys didn't write this file to its end")


class Mistakes(InFolder):
    def test_another_exception_is_a_fault_of_flow(self):
        words = ("report", self.put("t.blif", MUX_TEMPLATE), self.put("p.ppc", MUX_PACK))
        with mock.patch.object(report, "run", side_effect=KeyError("a\nb")), mock.patch("tempfile.tempdir", self.folder):
            ran = flow(*words)
        self.assert_fault(ran, "flow report: this is a fault of flow, not of its input: KeyError: 'a\\nb'; its traceback is in ")
        with open(re.search(r"in (\S+flow-fault-\S+\.txt), ", ran.stderr)[1], encoding="utf-8") as file:
            text = file.read()
        self.assertIn("Traceback (most recent call last)", text)
        self.assertIn("KeyError", text)

    def test_an_interrupt_at_once(self):
        self.put("sitecustomize.py", INTERRUPT)
        for module in ("tlutflow.main", "tlutflow.commands.wave", "tlutflow.devices.cfglut"):
            variables = {**os.environ, "PYTHONPATH": self.folder, "INTERRUPTED": module}
            for words in ((f"{TOP}/flow",), ("-m", "tlutflow")):
                call = [sys.executable, *words, "explain", "x"]
                ran = subprocess.run(call, env=variables, cwd=TOP, capture_output=True, text=True, check=False, preexec_fn=heed_signals)
                self.assertEqual((ran.returncode, ran.stderr), (1, "flow: stopped\n"), (module, words))
