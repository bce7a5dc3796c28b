"""The interface for other programs, and the completion in a shell."""

import contextlib
import glob
import importlib.util
import io
import os
import pathlib
import re
import shutil
import subprocess
import sys
import unittest

import tlutflow
from tlutflow.api import arguments
from tlutflow.commands.complete import subcommands_of
from tlutflow.main import parser
from tlutflow.tests.helpers import DATA, EXAMPLES, MUX, TOP, InFolder, flow, needs
from tlutflow.tests.test_build import NEEDS_TLUT
from tlutflow.text import read_bytes
from tlutflow.tools import ABC


class Interface(InFolder):
    def test_readers_and_mappings(self):
        self.assertEqual(tlutflow.read_netlist(self.put("n.blif", MUX)).main.inputs, ["a", "b", "p"])
        mapping = tlutflow.Mapping(f"{DATA}/matcher_t.blif", f"{DATA}/matcher.ppc")
        self.assertEqual((mapping.statistics.tables, mapping.statistics.depth, len(mapping.pack.bits)), (4, 2, 44))
        self.assertEqual(tlutflow.read_pack(f"{DATA}/matcher.ppc"), mapping.pack)
        with self.assertRaises(tlutflow.Fault):
            tlutflow.read_netlist(f"{self.folder}/none")
        with self.assertRaises(AttributeError):
            tlutflow.no_such_name

    @needs(ABC)
    @NEEDS_TLUT
    def test_prepare_and_map(self):
        out = f"{self.folder}/prepared.blif"
        files = f"{EXAMPLES}/matcher/matcher.blif", f"{EXAMPLES}/matcher/matcher.par"
        found = tlutflow.prepare(*files, k=4, only=("raw",), jobs=1, out=out)
        mapping = tlutflow.Mapping.make(out, files[1], 4, self.folder, found.best.rule)
        self.assertEqual((mapping.statistics.tables, mapping.statistics.depth), (found.best.tables, found.best.depth))
        with self.assertRaisesRegex(tlutflow.Fault, "the rules are tlut, compact"):
            tlutflow.Mapping.make(out, files[1], 4, self.folder, "none")

    @NEEDS_TLUT
    def test_build(self):
        """A build from values prints nothing on stdout, ends no process, and makes what the command makes."""
        netlist, params = self.put("n.blif", MUX), self.put("n.par", "p 0\n")
        printed = io.StringIO()
        with contextlib.redirect_stdout(printed), contextlib.redirect_stderr(io.StringIO()):
            report = tlutflow.build(netlist, pathlib.Path(params), out=f"{self.folder}/made", k=3, quick=True)
        self.assertEqual((report, printed.getvalue()), (f"{self.folder}/made/index.html", ""))
        flow("build", netlist, params, "--out", f"{self.folder}/called", "--k", "3", "--quick")
        for end in (".blif", ".par", "_t.blif", ".ppc", ".cert"):
            self.assertEqual(*(read_bytes(f"{self.folder}/{name}/n{end}") for name in ("made", "called")))

    def test_wrong_values(self):
        """A wrong option is a fault, and nothing is written."""
        files, out = ("x.v",), f"{self.folder}/out"
        for values, part in (
            ({"kk": 4}, "kk is no option of build; the options are abc, again, aim, "),
            ({"k": 9}, "k is 9: it is one of 2, 3, 4, 5, 6"),
            ({"k": "4"}, "k is '4': it is an integer"),
            ({"k": True}, "k is True: it is an integer"),
            ({"aim": "speed"}, "aim is 'speed': it is one of depth, luts, bits, changes"),
            ({"seconds": "long"}, "seconds is 'long': it is a number"),
            ({"seconds": 0, "top": "x"}, "seconds"),
            ({"quick": 1}, "quick is 1: it is True or False"),
            ({"top": 5}, "top is 5: it is a string"),
            ({"param": 5}, "param is 5: it is a string, several, or a mapping of names to values"),
            ({}, "--top names the module"),
        ):
            with self.subTest(values), contextlib.redirect_stderr(io.StringIO()), self.assertRaisesRegex(tlutflow.Fault, re.escape(part)):
                tlutflow.build(*files, out=out, **values)
        for call, part in ((lambda: tlutflow.build(out=out), "a build needs the files"), (lambda: tlutflow.prepare("n", "p", 7), "k is 7")):
            with self.assertRaisesRegex(tlutflow.Fault, part):
                call()
        self.assertFalse(os.path.exists(out))

    def test_words_from_values(self):
        given = arguments("build", {"files": ["x.v"], "out": "o", "param": {"c0": 5, "c1": "8'h3"}, "define": {"FAST": None, "N": 2}, "further": {"short": "dc2"}})
        self.assertEqual((given.param, given.define, given.further), (["c0=5", "c1=8'h3"], ["FAST", "N=2"], ["short=dc2"]))
        self.assertEqual((given.quick, given.reader, given.only), (False, "verilog", []))

    def test_earlier_words(self):
        """Words that an option took before, as values of it and on the command line."""
        self.assertEqual(arguments("prepare", {"netlist": "n", "params": "p", "aim": "tables"}).aim, "luts")
        given = subcommands_of(parser())["prepare"].parse_args(["n", "p", "--for", "tables"])
        self.assertEqual(given.aim, "luts")

    def test_as_a_module(self):
        words = [sys.executable, "-m", tlutflow.__name__, "prepare", "x", "y", "--list"]
        ran = subprocess.run(words, capture_output=True, text=True, cwd=TOP, check=False)
        self.assertEqual((ran.returncode, ran.stdout.split()[0]), (0, "raw"), ran.stderr)
        self.assertTrue(os.path.exists(f"{TOP}/{tlutflow.__name__}/py.typed"))


    @unittest.skipUnless(all(importlib.util.find_spec(it) for it in ("pip", "setuptools", "wheel")), "pip, setuptools and wheel aren't there")
    def test_as_a_package(self):
        """The package that pip makes without a network has what the commands need, the style and the script of the report page too."""
        for name in ("tlutflow", "pyproject.toml", "README.md"):
            copy = shutil.copytree if os.path.isdir(f"{TOP}/{name}") else shutil.copy
            copy(f"{TOP}/{name}", f"{self.folder}/{name}")
        made, before = f"{self.folder}/made", set(os.listdir(self.folder))
        words = ["-q", "--no-index", "--no-build-isolation", "--no-deps", "--disable-pip-version-check", "--target", made, "."]
        ran = subprocess.run([sys.executable, "-m", "pip", "install", *words], capture_output=True, text=True, cwd=self.folder, check=False)
        self.assertEqual(ran.returncode, 0, ran.stderr)
        left = sorted(set(os.listdir(self.folder)) - before - {"made"})
        known = subprocess.run(["git", "-C", TOP, "check-ignore", *(f"{name}/x" for name in left)], capture_output=True, text=True, check=False)
        self.assertEqual(known.stdout.split(), [f"{name}/x" for name in left], "git doesn't ignore what pip leaves")
        for words in ([f"{made}/bin/tlut-flow"], [sys.executable, "-m", "tlutflow"]):
            environment = {**os.environ, "PYTHONPATH": made}
            ran = subprocess.run([*words, "report", f"{DATA}/fir_t.blif", f"{DATA}/fir.ppc"], capture_output=True, text=True, cwd=made, env=environment, check=False)
            self.assertIn("64 LUTs at depth 5", ran.stdout, ran.stderr)
        self.assertEqual({"report.css", "report.js"}, set(os.listdir(f"{made}/tlutflow/page")))

    def test_packages_are_listed(self):
        """pip installs the packages that pyproject.toml lists: all but the tests."""
        there = {os.path.relpath(os.path.dirname(path), TOP).replace("/", ".") for path in glob.glob(f"{TOP}/tlutflow/**/__init__.py", recursive=True)}
        with open(f"{TOP}/pyproject.toml", encoding="utf-8") as file:
            listed = re.findall(r'"([\w.]+)"', re.search(r"^packages = \[(.*\..*)\]$", file.read(), re.MULTILINE)[1])
        self.assertEqual(listed, sorted(there - {"tlutflow.tests"}))


class Completion(unittest.TestCase):
    def completed(self, *words: str) -> set[str]:
        made = flow("complete", "bash").stdout
        listed = " ".join(f"'{word}'" for word in words)
        call = f"{made}\nCOMP_WORDS=(flow {listed}); COMP_CWORD={len(words)}; _tlut_flow; printf '%s\\n' \"${{COMPREPLY[@]}}\""
        ran = subprocess.run(["bash", "-c", call], capture_output=True, text=True, check=False)
        self.assertEqual(ran.stderr, "")
        return set(ran.stdout.split())

    def test_words(self):
        self.assertEqual(self.completed("pre"), {"prepare"})
        self.assertLessEqual({"--k", "--for", "--list"}, self.completed("prepare", "--"))
        self.assertEqual(self.completed("build", "--for", ""), {"depth", "luts", "bits", "changes", "sites"})
