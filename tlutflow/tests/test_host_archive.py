"""How the library for host programs is proved and compiled, by tools/host_archive.py. Scripts stand for the toolchain."""

import os
import shutil
import signal
import subprocess
import sys
import time

from tlutflow.tests.checkout import Checkout
from tlutflow.tests.helpers import TOP

# Stand for the toolchain: `rt ci` proves each crate of the folder that it runs in, and `rattle` compiles from what it left there.
RT = f"""#!{sys.executable}
import os, sys
names = [line.split(":")[0] for line in open("crates.txt")]
print(sys.argv[1:], names, sorted(os.listdir("crates")))
for name in names:
    os.makedirs(f"crates/{{name}}/out/rlib/{{name}}.rlib")
sys.exit(int(os.environ.get("FAKE_GATE_STATUS", 0)))
"""
RATTLE = f"""#!{sys.executable}
import os, sys
words = sys.argv[1:]
given = dict(zip(words, words[1:]))
kit = os.path.dirname(os.path.dirname(sys.argv[0]))
found = [word.split("=") for before, word in zip(words, words[1:]) if before in ("--extern", "-L")]
assert all(os.path.isdir(path) for _, path in found), found
print(words[0], os.listdir("src"), [(name, os.path.basename(path), path.startswith(kit)) for name, path in found])
if "FAKE_PROOF_FAILS" not in os.environ:
    open(given["-o"], "w").write(given["--crate-type"] + " " + given["--target"] + " " + given["--cpu"])
sys.exit(int("FAKE_PROOF_FAILS" in os.environ))
"""
# Stands for a gate that takes long: it says that it has begun.
SLOW = """#!/bin/sh
echo $$ > "$BEGUN.new" && mv "$BEGUN.new" "$BEGUN"
exec sleep 60
"""


class HostArchive(Checkout):
    def setUp(self) -> None:
        super().setUp()
        self.put_in("crates.txt", "# crates\nlow: thiserror\nmiddle: low\nabove: middle\ntlut_host staticlib: core middle\n")
        for name in ("low", "middle", "above", "tlut_host"):
            self.put_in(f"crates/{name}/src/lib.rt", name)
        for name in ("std", "core", "thiserror"):
            os.makedirs(f"{self.folder}/kit/rlibs/{name}.rlib")
        os.makedirs(f"{self.folder}/kit/bin")
        for name, text in (("rt", RT), ("rattle", RATTLE)):
            os.chmod(self.put(f"kit/bin/{name}", text), 0o755)

    def build(self, **variables: str) -> subprocess.CompletedProcess:
        words = [f"{self.folder}/kit/bin/rt", "aarch64-unknown-linux-gnu", "generic", "made.a"]
        return self.call(sys.executable, f"{self.top}/tools/host_archive.py", *words, **variables)

    def test_it_is_compiled_from_what_the_gate_proved(self) -> None:
        """The gate runs on the crates below and on no other; the library's own crate is compiled from what that left, for the processor."""
        ran = self.build()
        self.assertEqual(ran.returncode, 0, ran.stderr)
        gate, compiler = ran.stdout.splitlines()
        self.assertEqual(gate, "['ci'] ['low', 'middle'] ['low', 'middle']")
        rlibs = [("std", "std.rlib", True), ("core", "core.rlib", True), ("middle", "middle.rlib", False)]
        folders = [("dependency", "rlibs", True), ("dependency", "rlib", False), ("dependency", "rlib", False)]
        self.assertEqual(compiler, f"build ['lib.rt'] {[*rlibs, *folders]}")
        with open(f"{self.folder}/made.a", encoding="ascii") as file:
            self.assertEqual(file.read(), "staticlib aarch64-unknown-linux-gnu generic")

    def test_nothing_is_left_if_a_proof_fails(self) -> None:
        """If the gate fails, nothing is compiled; if the library's own proof fails, nothing is written."""
        ran = self.build(FAKE_GATE_STATUS="1")
        self.assertEqual((ran.returncode, len(ran.stdout.splitlines())), (1, 1))
        ran = self.build(FAKE_PROOF_FAILS="1")
        self.assertEqual((ran.returncode, len(ran.stdout.splitlines())), (1, 2))
        self.assertFalse(os.path.exists(f"{self.folder}/made.a"))

    def assert_all_is_ended(self, words: list[str], status: int, **variables: str) -> None:
        """SIGTERM ends the call, the gate that it runs, and its folders."""
        os.chmod(self.put("kit/bin/rt", SLOW), 0o755)
        os.makedirs(f"{self.folder}/temporary")
        variables = {**os.environ, "TMPDIR": f"{self.folder}/temporary", "BEGUN": f"{self.folder}/begun", **variables}
        with open(os.devnull, "wb") as nothing:
            ran = subprocess.Popen(words, cwd=self.folder, env=variables, stdout=nothing, stderr=nothing)
        for _ in range(300):
            if os.path.exists(f"{self.folder}/begun"):
                break
            time.sleep(0.1)
        with open(f"{self.folder}/begun", encoding="ascii") as file:
            gate = int(file.read())
        ran.send_signal(signal.SIGTERM)
        self.assertEqual(ran.wait(40), status)
        self.assertEqual(os.listdir(f"{self.folder}/temporary"), [])
        self.assertFalse(os.path.exists(f"/proc/{gate}"))

    def test_a_signal_ends_all_of_it(self) -> None:
        words = [f"{self.folder}/kit/bin/rt", "x86_64-unknown-linux-gnu", "x86-64", "made.a"]
        self.assert_all_is_ended([sys.executable, f"{self.top}/tools/host_archive.py", *words], 130)

    def test_a_signal_ends_make_and_all_of_it(self) -> None:
        if not shutil.which("make"):
            self.skipTest("GNU make (make) isn't there")
        shutil.copytree(f"{TOP}/include", f"{self.top}/include", ignore=shutil.ignore_patterns("build"))
        self.assert_all_is_ended(["make", "-C", f"{self.top}/include", f"RT={self.folder}/kit/bin/rt"], -signal.SIGTERM)
