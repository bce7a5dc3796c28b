"""Other programs that crash, hang, or run when the companion is stopped."""

import os
import shutil
import signal
import stat
import subprocess
import sys
import time
from unittest import mock

from tlutflow import tools
from tlutflow.api import arguments
from tlutflow.commands import build
from tlutflow.faults import Undecided
from tlutflow.tests.helpers import MUX, TOP, InFolder, flow, heed_signals, needs
from tlutflow.tests.test_abc import FAKE
from tlutflow.tests.test_build import NEEDS_TLUT
from tlutflow.tools import ABC, find, run, versions

# A netlist of which the end is missing, as a program leaves it that dies while it writes.
CUT_OFF = ".model n\\n.inputs a b p\\n.outputs y\\n.names a b y\\n11 1\\n"
CRASH = "echo 'Assertion failed: x' >&2; kill -ABRT $$"


class Programs(InFolder):
    def put_program(self, name: str, body: str) -> str:
        """Puts a script in the folder, and returns a PATH on which it comes first."""
        os.chmod(self.put(name, f"#!/bin/sh\n{body}\n"), stat.S_IRWXU)
        return f"{self.folder}:{os.environ['PATH']}"

    def put_netlist(self) -> tuple:
        return self.put("n.blif", MUX), self.put("n.par", "p 0\n")


class Crashes(Programs):
    def test_a_comparison_that_crashes_isnt_undecided(self):
        source = self.put_netlist()[0]
        path = self.put_program("yosys-abc", CRASH)
        self.assert_fault(flow("check", source, source, PATH=path), "ABC ended with status -6: Assertion failed: x")
        path = self.put_program("yosys-abc", "echo Networks are UNDECIDED.")
        self.assert_fault(flow("check", source, source, PATH=path), "ABC cec didn't decide it: Networks are UNDECIDED.")

    def test_sizes_of_half_a_netlist(self):
        words = ("compare", *self.put_netlist(), "--tlut", f"{self.folder}/tlut", "--k", "3", "-j", "1")
        self.put_program("tlut", FAKE)
        for end, part in ((CRASH, "ABC ended with status -6: Assertion failed: x"), ("exit 0", "its last line isn't .end")):
            path = self.put_program("yosys-abc", f"printf '{CUT_OFF}' > abc.blif\n{end}")
            self.assert_fault(flow(*words, PATH=path), part)

    @needs(ABC)
    @NEEDS_TLUT
    def test_a_build(self):
        words = ("build", *self.put_netlist(), "--quick", "--k", "4", "--out", f"{self.folder}/out")
        for body, status, part in ((CRASH, 1, "ABC ended with status -6"), ("echo Networks are UNDECIDED.", 0, "not shown: the mapped netlist")):
            path = self.put_program("yosys-abc", f'case "$2" in *cec*) {body};; *) exec {find(ABC)} "$@";; esac')
            ran = flow(*words, PATH=path)
            self.assertEqual(ran.returncode, status, ran.stderr)
            self.assertIn(part, ran.stderr if status else ran.stdout)

    def test_a_limit_of_time_decides_nothing(self):
        with self.assertRaisesRegex(Undecided, "sleep was stopped after 0.1 seconds"):
            run(["sleep", "60"], None, 0.1)


class Bits(Programs):
    @NEEDS_TLUT
    def test_an_upset_may_be_of_any_bit(self):
        """So all bits are writable in a run with upsets. That is said if an option chose otherwise, and the options stay as they were given."""
        script, out = self.put("n.scr", "cycle a=1 b=0\nupset 0\ncycle\n"), f"{self.folder}/out"
        words = (*self.put_netlist(), "--quick", "--k", "4", "--script", script, "--out", out)
        ran = flow("build", *words, "--bits", "distinct")
        self.assertEqual(ran.returncode, 0, ran.stderr)
        self.assertIn("flow build: --bits distinct becomes --bits all, since the script has upsets", ran.stderr)
        self.assertNotIn("becomes", flow("build", *words).stderr)
        given = arguments("build", {"files": list(words[:2]), "quick": True, "k": 4, "script": script, "out": out, "bits": "distinct"})
        with mock.patch("sys.stderr", open(os.devnull, "w", encoding="utf-8")) as nothing:
            build.make(given)
            nothing.close()
        self.assertEqual(given.bits, "distinct")


class Hanging(Programs):
    def test_sizes_have_a_limit(self):
        path = self.put_program("yosys-abc", "while :; do :; done")
        self.put_program("tlut", FAKE)
        ran = flow("compare", *self.put_netlist(), "--tlut", f"{self.folder}/tlut", "--k", "3", "--seconds", "1", PATH=path)
        self.assertEqual(ran.stdout.splitlines()[3].split()[-2:], ["timeout", "timeout"], ran.stderr)

    def test_a_version_has_a_limit(self):
        with mock.patch.dict(os.environ, {"PATH": self.put_program("yosys-abc", "exec sleep 60")}), mock.patch.object(tools, "LONGEST_VERSION", 0.3):
            self.assertEqual(versions(self.put_program("tlut", FAKE).split(":")[0] + "/tlut")["ABC"], "unknown")


class Stopped(Programs):
    def begun(self, name: str) -> int:
        """The number of a program that says so in a file once it has begun."""
        for _ in range(600):
            if os.path.exists(f"{self.folder}/{name}") and os.path.getsize(f"{self.folder}/{name}"):
                with open(f"{self.folder}/{name}", encoding="utf-8") as file:
                    return int(file.read())
            time.sleep(0.1)
        raise AssertionError(f"{name} didn't begin")

    def assert_gone(self, number: int):
        for _ in range(50):
            try:
                with open(f"/proc/{number}/stat", encoding="utf-8") as file:
                    if file.read().rpartition(")")[2].split()[0] == "Z":
                        return
            except OSError:
                return
            time.sleep(0.1)
        raise AssertionError(f"{number} still runs")

    def test_nothing_is_left(self):
        """Neither programs, and what these have called, nor folders; whether one program runs, or several in threads."""
        os.mkdir(f"{self.folder}/temporary")
        path = self.put_program("yosys-abc", f"sleep 60 & echo $! > {self.folder}/inner; echo $$ > {self.folder}/outer.new; mv {self.folder}/outer.new {self.folder}/outer; wait")
        self.put_program("tlut", FAKE)
        netlist, params = self.put_netlist()
        variables = {**os.environ, "PATH": path, "TMPDIR": f"{self.folder}/temporary"}
        for number in (signal.SIGTERM, signal.SIGINT, signal.SIGHUP):
            for words in (("check", netlist, netlist), ("compare", netlist, params, "--tlut", f"{self.folder}/tlut", "-j", "4")):
                for name in ("inner", "outer"):
                    if os.path.exists(f"{self.folder}/{name}"):
                        os.remove(f"{self.folder}/{name}")
                ran = subprocess.Popen([sys.executable, f"{TOP}/flow", *words], env=variables, stderr=subprocess.PIPE, text=True, preexec_fn=heed_signals)
                programs = [self.begun(name) for name in ("outer", "inner")]
                ran.send_signal(number)
                self.assertEqual((ran.communicate(timeout=30)[1], ran.returncode), (f"flow {words[0]}: stopped\n", 1))
                for program in programs:
                    self.assert_gone(program)
                self.assertEqual(os.listdir(f"{self.folder}/temporary"), [])

    @NEEDS_TLUT
    def test_a_build(self):
        """The simulation, which one of several threads runs."""
        if not shutil.which("iverilog"):
            self.skipTest("Icarus Verilog (iverilog) isn't there")
        os.mkdir(f"{self.folder}/temporary")
        path = self.put_program("iverilog", f"echo $$ > {self.folder}/outer.new; mv {self.folder}/outer.new {self.folder}/outer; sleep 60")
        words = ("build", *self.put_netlist(), "--quick", "--k", "4", "--script", self.put("n.scr", "cycle a=1 b=0\n"), "--out", f"{self.folder}/out")
        ran = subprocess.Popen(
            [sys.executable, f"{TOP}/flow", *words], env={**os.environ, "PATH": path, "TMPDIR": f"{self.folder}/temporary"}, stderr=subprocess.PIPE, text=True
        )
        program = self.begun("outer")
        ran.terminate()
        self.assertEqual((ran.communicate(timeout=30)[1].splitlines()[-1], ran.returncode), ("flow build: stopped", 1))
        self.assert_gone(program)
        self.assertEqual(os.listdir(f"{self.folder}/temporary"), [])
