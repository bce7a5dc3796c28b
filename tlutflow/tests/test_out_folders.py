"""What `--out` writes to, programs in relative folders, and files that a failed write names."""

import os
import stat
import subprocess

from tlutflow import tools
from tlutflow.faults import Fault
from tlutflow.host import PacedHost
from tlutflow.refusals import refusal, refusal_of
from tlutflow.tests.helpers import MUX, MUX_PACK, MUX_TEMPLATE, InFolder, flow, needs
from tlutflow.tests.test_build import NEEDS_TLUT
from tlutflow.tools import ABC, YOSYS


class Folders(InFolder):
    def setUp(self):
        super().setUp()
        self.out = f"{self.folder}/out"
        os.makedirs(self.out)
        self.put("mine", "mine")

    def assert_mine(self, path: str):
        with open(path, encoding="utf-8") as file:
            self.assertEqual(file.read(), "mine")

    def link(self, name: str) -> None:
        os.symlink("../mine", f"{self.out}/{name}")

    @NEEDS_TLUT
    def test_a_page_of_somebody_else_stays(self):
        words = ("build", self.put("n.blif", MUX), self.put("n.par", "p 0\n"), "--quick", "--k", "4", "--out", self.out)
        page = self.put("out/index.html", "mine")
        self.assert_fault(flow(*words), "index.html is there and is no report of a build")
        self.assert_mine(page)
        self.assertEqual(os.listdir(self.out), ["index.html"])
        os.remove(page)
        for _ in range(2):
            self.assertEqual(flow(*words).returncode, 0)

    @NEEDS_TLUT
    def test_a_build_writes_through_no_link(self):
        words = ("build", self.put("n.blif", MUX), self.put("n.par", "p 0\n"), "--quick", "--k", "4", "--out", self.out)
        for name in ("index.html", "build.json", "n.blif", "n.par", "n_mapped.v", "n.svg", "n.vcd"):
            self.link(name)
            self.assert_fault(flow(*words), f"{name} is a link, and nothing is written through one")
            self.assert_mine(f"{self.folder}/mine")
            os.remove(f"{self.out}/{name}")

    @needs(YOSYS)
    def test_nor_does_another_subcommand(self):
        self.put("top.v", "module top (input a, output y); assign y = ~a; endmodule\n")
        calls = [
            ("top.par", ("verilog", "--quick", f"{self.folder}/top.v", "--top", "top")),
            ("mux_mapped.v", ("hdl", self.put("t.blif", MUX_TEMPLATE), self.put("p.ppc", MUX_PACK))),
            ("mux.json", ("device", self.put("n.blif", MUX), "--target", "ice40", "--no-place")),
        ]
        for name, words in calls:
            self.link(name)
            self.assert_fault(flow(*words, "--out", self.out), f"{name} is a link")
            self.assert_mine(f"{self.folder}/mine")


class Programs(InFolder):
    @needs(ABC)
    def test_a_relative_folder_on_the_path(self):
        os.makedirs(f"{self.folder}/bin")
        os.symlink(str(tools.find(ABC)), f"{self.folder}/bin/yosys-abc")
        source = self.put("n.blif", MUX)
        self.assertEqual(flow("check", source, source, folder=self.folder, PATH=f"bin:{os.environ['PATH']}").stdout, "equal (ABC cec)\n")

    def test_a_failed_write_names_the_files(self):
        self.assertIn("out/t.blif or out/p.ppc: write failed; ", str(refusal("tlut: write failed", None, ["out/t.blif", "out/p.ppc"])))
        self.assertTrue(str(refusal("tlut: write failed")).startswith("write failed; "))
        ran = subprocess.CompletedProcess(["tlut"], 6, "", "tlut: write failed\n")
        self.assertIn("a: write failed; ", str(refusal_of(ran, written=["a"])))

    def test_a_build_names_them(self):
        body = "[ $1 = --compact ] && shift\n[ $1 = spec ] && { echo tlut: write failed >&2; exit 6; }\n"
        program = self.put("tlut", f"#!/bin/sh\n{body}touch $5 $6; echo luts 1 bits 4 depth 1\n")
        os.chmod(program, stat.S_IRWXU)
        words = ("build", self.put("n.blif", MUX), self.put("n.par", "p 0\n"), "--quick", "--k", "4", "--tlut", program)
        ran = flow(*words, "--out", f"{self.folder}/out", PATH=self.folder_with_sh())
        self.assertIn("n_spec.blif: write failed; ", ran.stderr)

    def folder_with_sh(self) -> str:
        """A PATH with a shell's programs alone."""
        os.makedirs(f"{self.folder}/bin")
        for name in ("sh", "touch"):
            os.symlink(f"/bin/{name}", f"{self.folder}/bin/{name}")
        return f"{self.folder}/bin"

    def test_a_rate_that_is_no_number(self):
        for rate in ("x", 1.5, None, True, 0):
            with self.assertRaisesRegex(Fault, "a tick writes 1 to"):
                PacedHost(f"{self.folder}/none.ppc", rate)
