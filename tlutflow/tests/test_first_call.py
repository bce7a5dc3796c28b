"""The first call of the wrapper: when it proves, what it reports, and what stays after an interrupt. A script stands for `rt`."""

import os
import re
import shutil
import signal
import subprocess
import sys
import tempfile
import time
import unittest
from unittest import mock

from tlutflow.tests.checkout import PROGRAM, Checkout
from tlutflow.tests.helpers import TOP

# Stands for `rt ci`: proves one crate after another, keeps what it proved in a folder, stops for long at the crate STOP_AT, and fails at
# the crate FAIL_AT. The programs that it builds show that they are new.
RT = f"""#!{sys.executable}
import os, sys, time
assert sys.argv[1:] == ["ci"], sys.argv
kept = os.environ["KEPT"]
for name in [line.split(":")[0] for line in open("crates.txt")]:
    if os.path.exists(f"{{kept}}/{{name}}"):
        print(f"rt: {{name}} is kept: an earlier run on this machine proved the same files", flush=True)
        continue
    if name == os.environ.get("STOP_AT"):
        open(f"{{kept}}/pid", "w").write(str(os.getpid()))
        time.sleep(60)
    if name == os.environ.get("FAIL_AT"):
        print(f"rt: {{name}} NOT PROVED", flush=True)
        sys.exit(1)
    open(f"{{kept}}/{{name}}", "w")
    print(f"rt: {{name}} proved", flush=True)
for name in ("tlut", "tlut_compact"):
    os.makedirs(f"crates/{{name}}/out")
    open(f"crates/{{name}}/out/{{name}}", "w").write("#!/bin/sh\\necho new $*\\n")
    os.chmod(f"crates/{{name}}/out/{{name}}", 0o755)
"""


class Proves(Checkout):
    def setUp(self) -> None:
        super().setUp()
        for name in ("bin", "kept", "tmp"):
            os.makedirs(f"{self.folder}/{name}")
        self.variables = {"PATH": self.put_rt(RT), "KEPT": f"{self.folder}/kept", "TMPDIR": f"{self.folder}/tmp"}

    def run_it(self, **variables: str) -> subprocess.CompletedProcess:
        return self.call(f"{self.top}/tlut", "x", **self.variables, **variables)

    def is_proved_by_a_call(self) -> bool:
        """Whether a call proves; the old program is then put back."""
        ran = self.run_it()
        self.assertIn(ran.stdout, ("<x>", "new x\n"), ran.stderr)
        return ran.stdout != "<x>"

    def edit(self, name: str, text: str, is_old: bool = False) -> None:
        path = self.put_in(name, text)
        if is_old:
            os.utime(path, (1, 1))


class Stale(Proves):
    def test_contents_decide(self):
        """An edit calls for a proof, even one with an old time; a touch, a copy of the checkout and another crate's edit don't."""
        self.assertFalse(self.is_proved_by_a_call())
        self.assertFalse(self.is_proved_by_a_call())
        os.utime(f"{self.top}/crates/base/src/lib.rt")
        self.assertFalse(self.is_proved_by_a_call())
        self.edit("crates/other/src/lib.rt", "edited")
        self.assertFalse(self.is_proved_by_a_call())
        shutil.copytree(self.top, f"{self.folder}/copy", copy_function=shutil.copy)
        self.top = f"{self.folder}/copy"
        self.assertFalse(self.is_proved_by_a_call())
        self.assertFalse(self.is_proved_by_a_call())
        self.top = f"{self.folder}/top"
        self.edit("crates/base/src/lib.rt", "edited", is_old=True)
        self.assertTrue(self.is_proved_by_a_call())

    def test_a_copy_of_what_is_stale_is_stale(self):
        self.assertFalse(self.is_proved_by_a_call())
        self.edit("crates/base/src/lib.rt", "edited")
        shutil.copytree(self.top, f"{self.folder}/copy", copy_function=shutil.copy)
        listed = f"{self.folder}/copy/crates/tlut/out/sources"
        os.utime(listed, (time.time() + 60, time.time() + 60))
        self.top = f"{self.folder}/copy"
        self.assertTrue(self.is_proved_by_a_call())

    def test_what_is_new_gone_or_moved_calls_for_a_proof(self):
        for change in (
            lambda: self.edit("crates/base/specs/Lib.antt", "new"),
            lambda: os.remove(f"{self.top}/crates/base/proofs/Lib.antt"),
            lambda: os.rename(f"{self.top}/crates/base/src/lib.rt", f"{self.top}/crates/base/src/other.rt"),
            lambda: self.edit("crates.txt", "base:\nmore:\ntlut: base more\ntlut_compact: base\nother: base\n"),
        ):
            self.assertFalse(self.is_proved_by_a_call())
            change()
            self.assertTrue(self.is_proved_by_a_call())
            self.put_program("tlut", PROGRAM)
            self.assertFalse(self.is_proved_by_a_call())

    def test_a_program_of_another_command_is_judged_by_times_once(self):
        self.edit("crates/base/src/lib.rt", "edited")
        os.utime(f"{self.top}/crates/base/src/lib.rt", (time.time() + 60, time.time() + 60))
        self.assertTrue(self.is_proved_by_a_call())

    def test_a_short_call_reads_no_source(self):
        """Once all was looked at, the next call looks at the list alone: its own tool isn't called."""
        self.assertFalse(self.is_proved_by_a_call())
        self.put_in("tools/sources.py", "raise SystemExit(1)\n")
        self.assertFalse(self.is_proved_by_a_call())
        self.put_in("crates/tlut/out/sources", "gone\0")
        ran = self.run_it()
        self.assertNotEqual(ran.stdout, "<x>")


class Kept(Proves):
    def test_the_old_program_stays_until_the_new_one_is_there(self):
        self.edit("crates/base/src/lib.rt", "edited")
        os.utime(f"{self.top}/crates/tlut/out/tlut", (1, 1))
        ran = self.run_it(FAIL_AT="tlut")
        self.assertEqual((ran.returncode, ran.stdout), (1, ""))
        self.assertIn("was not proved", ran.stderr)
        with open(f"{self.top}/crates/tlut/out/tlut", encoding="utf-8") as file:
            self.assertEqual(file.read(), PROGRAM)
        ran = self.run_it()
        self.assertEqual((ran.returncode, ran.stdout), (0, "new x\n"), ran.stderr)

    def test_without_rt(self):
        variables = {**self.variables, "PATH": self.path_without_rt()}
        os.utime(f"{self.top}/crates/tlut/out/tlut", (0, 0))
        ran = self.call(f"{self.top}/tlut", "x", **variables)
        self.assertEqual((ran.returncode, ran.stdout, ran.stderr.count("\n")), (1, "", 1))
        self.assertIn("the earlier program stays as it was", ran.stderr)
        os.remove(f"{self.top}/crates/tlut/out/tlut")
        ran = self.call(f"{self.top}/tlut", "x", **variables)
        self.assertEqual((ran.returncode, ran.stderr), (1, "tlut: the program is not built yet, and rt, which builds it, is not on the PATH\n"))


class Interrupted(Proves):
    def setUp(self) -> None:
        super().setUp()
        os.remove(f"{self.top}/crates/tlut/out/tlut")

    def begin(self, *words: str) -> subprocess.Popen:
        """Begins a call that stops at the second crate, and waits until it is there."""
        environment = {**os.environ, **self.variables, "STOP_AT": "tlut"}
        call = subprocess.Popen(words, cwd=self.folder, env=environment, stdout=subprocess.PIPE, stderr=subprocess.PIPE, text=True, start_new_session=True)
        self.addCleanup(call.stdout.close)
        self.addCleanup(call.stderr.close)
        for _ in range(300):
            if os.path.exists(f"{self.folder}/kept/pid") and os.path.getsize(f"{self.folder}/kept/pid"):
                return call
            time.sleep(0.1)
        self.fail("the call didn't begin")

    def assert_ended(self, call: subprocess.Popen) -> None:
        """It ended with one line about it; neither `rt` nor a folder is left."""
        self.assertEqual(call.wait(40), 130)
        self.assertTrue(call.stderr.read().endswith("tlut: interrupted; what is proved is kept, and the next call continues there\n"))
        with open(f"{self.folder}/kept/pid", encoding="utf-8") as file:
            self.assertFalse(os.path.exists(f"/proc/{file.read()}"))
        self.assertEqual([name for name in os.listdir(f"{self.folder}/tmp") if not name.startswith("tlut-build.")], [])

    def assert_continues(self) -> None:
        ran = self.run_it()
        self.assertEqual((ran.returncode, ran.stdout), (0, "new x\n"), ran.stderr)
        self.assertIn("an earlier call proved a part of this; it is not proved again", ran.stderr)
        self.assertNotIn("proved base:", ran.stderr)
        self.assertIn("proved tlut:", ran.stderr)

    def test_from_a_terminal(self):
        call = self.begin(f"{self.top}/tlut", "x")
        os.killpg(call.pid, signal.SIGINT)
        self.assert_ended(call)
        self.assert_continues()

    def test_by_a_signal_to_one_process(self):
        call = self.begin(sys.executable, f"{self.top}/tools/build_program.py", f"{self.folder}/log")
        call.send_signal(signal.SIGTERM)
        self.assert_ended(call)
        self.assert_continues()


class Told(unittest.TestCase):
    """What is reported, and the estimate, on small examples worked out by hand."""

    def setUp(self) -> None:
        sys.path.insert(0, f"{TOP}/tools")
        self.addCleanup(sys.path.remove, f"{TOP}/tools")
        import gate_minutes
        import progress
        import sources

        self.gate_minutes, self.progress, self.sources = gate_minutes, progress, sources

    def test_it_is_never_silent_for_long(self):
        self.assertLess(self.progress.SILENCE * 1.1, 30)
        script = (
            "import sys, time; sys.path.insert(0, sys.argv[1]); import progress\n"
            "work = {name: progress.Work(1.0, name.upper()) for name in ('a', 'b', 'c')}\n"
            "with progress.Voice(work, {'a': [], 'b': ['a'], 'c': ['b']}, 0.1) as voice:\n"
            "    voice.step('a', True)\n    voice.at_work = lambda: ['b']\n    time.sleep(0.5)\n    voice.step('b')\n    voice.step('c')\n"
        )
        ran = subprocess.run([sys.executable, "-c", script, f"{TOP}/tools"], capture_output=True, text=True, check=True)
        lines = ran.stderr.splitlines()
        self.assertEqual(lines[0], "tlut: an earlier call proved a part of this; it is not proved again")
        self.assertRegex(lines[1], r"^tlut: at work for 0 min 00 s, 1 of 3 crates are proved, about \d+ minutes? left; now b \(B\)$")
        self.assertRegex(lines[-2], r"^tlut: proved b: B \(2 of 3; about \d minutes? left\)$")
        self.assertEqual(lines[-1], "tlut: proved c: C (3 of 3)")

    def test_crates_are_laid_out_on_the_processors(self):
        """a before b and c, d alone: on one processor 1 + 2 + 3 + 4; on two a and d begin, then c, then b; on three b need not wait."""
        minutes, uses = {"a": 1.0, "b": 2.0, "c": 3.0, "d": 4.0}, {"a": [], "b": ["a"], "c": ["a"], "d": []}
        for processors, together in ((1, 10.0), (2, 6.0), (3, 4.0)):
            self.assertEqual(self.progress.laid_out(minutes, uses, set(minutes), processors), together)
        self.assertEqual(self.progress.laid_out(minutes, uses, {"c"}, 2), 3.0)
        self.assertEqual(self.progress.laid_out(minutes, uses, set(), 2), 0)

    def test_the_estimate_follows_the_speed(self):
        """Ten minutes laid out on one processor, of which one is kept and four are done: five are left, at the speed of the four."""
        estimate = self.progress.Estimate({"a": 1.0, "b": 4.0, "c": 5.0}, {"a": [], "b": ["a"], "c": ["b"]}, 1)
        shared, trusted = self.progress.SHARED, self.progress.TRUSTED
        self.assertEqual(estimate.minutes_left(0), 10 * shared)
        estimate.done("a", True)
        self.assertEqual(estimate.minutes_left(0), 9 * shared)
        estimate.done("b", False)
        self.assertAlmostEqual(estimate.minutes_left(8 * shared), 5 * shared * (8 * shared + trusted) / (4 * shared + trusted))

    def test_each_crate_has_its_work_in_words(self):
        _, uses = self.sources.read_lines()
        names = self.sources.below(uses, self.sources.PROGRAMS)
        work = self.progress.read_work()
        self.assertEqual(set(work), names)
        for name, it in work.items():
            self.assertTrue(0 < it.minutes < 60 and re.fullmatch(r"\w.{5,70}", it.words), name)

    def test_measured_minutes_replace_the_known_ones(self):
        with tempfile.TemporaryDirectory() as folder, mock.patch.object(self.gate_minutes, "TOP", folder):
            os.mkdir(f"{folder}/tools")
            path = f"{folder}/tools/crate_work.txt"
            with open(path, "w", encoding="utf-8") as file:
                file.write("# head\na 0.3 laws of lists\nb 2.0 files\nc 1.0 ports\n")
            self.gate_minutes.write({("a", "proof"): 90.0, ("a", "tests"): 600.0, ("b", "tests"): 60.0, ("c", "proof"): 1.0})
            with open(path, encoding="utf-8") as file:
                self.assertEqual(file.read(), "# head\na 1.5 laws of lists\nb 2.0 files\nc 0.1 ports\n")
