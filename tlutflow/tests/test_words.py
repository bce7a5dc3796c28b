"""The words of `flow`: help everywhere, faults in one line, and Python's oldest version."""

import ast
import contextlib
import glob
import io
import os
import subprocess
import sys
import time
import unittest
from unittest import mock

from tlutflow.commands.complete import subcommands_of
from tlutflow.main import COMMANDS, parser
from tlutflow.patience import patience
from tlutflow.tests.helpers import TOP, InFolder, flow


class Words(InFolder):
    def test_help(self):
        text = flow("--help").stdout
        for module in COMMANDS:
            name = module.__name__.rsplit(".", 1)[-1]
            self.assertIn(f"\n    {name} ", text)
            ran = flow(name, "--help")
            self.assertEqual((ran.returncode, ran.stderr), (0, ""))
            self.assertIn(module.DESCRIPTION.split("\n", 1)[0], ran.stdout)
            self.assertIn("example", ran.stdout)

    def test_each_argument_has_help(self):
        for name, own in subcommands_of(parser()).items():
            self.assertEqual([action.dest for action in own._actions if not action.help], [], name)

    def test_help_of_the_tools(self):
        """Each tool that is called by itself prints what it is for."""
        others = ("shared", "measured", "trial_designs", "figures", "time_plot", "progress")
        paths = set(glob.glob(f"{TOP}/tools/*.py")) - {f"{TOP}/tools/{name}.py" for name in others}
        self.assertGreater(len(paths), 20)
        for path in sorted(paths):
            with open(path, encoding="utf-8") as file:
                about = (ast.get_docstring(ast.parse(file.read())) or "").splitlines()[0]
            ran = subprocess.run([sys.executable, path, "--help"], capture_output=True, text=True, check=False)
            self.assertEqual((ran.returncode, ran.stderr, about in ran.stdout), (0, "", True), path)

    def test_wrong_words(self):
        self.assert_fault(flow(), "SUBCOMMAND", 2)
        self.assert_fault(flow("other"), "invalid choice", 2)
        self.assert_fault(flow("show", "x"), "required: PARAMS", 2)

    def test_through_a_link_from_elsewhere(self):
        os.symlink(f"{TOP}/flow", f"{self.folder}/tlut-flow")
        ran = subprocess.run([f"{self.folder}/tlut-flow", "params", "no.blif"], capture_output=True, text=True, cwd=self.folder, check=False)
        self.assertEqual((ran.returncode, ran.stderr), (1, "tlut-flow params: no.blif: No such file or directory\n"))


class Progress(unittest.TestCase):
    def test_work_that_takes_long(self):
        """A line comes after a while, and none of work that is done by then."""
        streams = [io.StringIO(), io.StringIO()]
        for stream, seconds in zip(streams, (0, 0.3)):
            with mock.patch("tlutflow.patience.FIRST", 0.05), contextlib.redirect_stderr(stream), patience("flow x", lambda: "2 of 3"):
                time.sleep(seconds)
        self.assertEqual(streams[0].getvalue(), "")
        self.assertRegex(streams[1].getvalue(), r"\Aflow x: 2 of 3: 0 s so far\n")


class TestsByName(unittest.TestCase):
    def test_help_and_names(self):
        """Help and a list run nothing."""
        words = [sys.executable, "-m", "tlutflow.tests"]
        told = [subprocess.run([*words, *more], capture_output=True, text=True, cwd=TOP, check=False) for more in (["--help"], ["--list", "test_words.Progress"])]
        self.assertEqual([(ran.returncode, ran.stderr) for ran in told], [(0, "")] * 2)
        self.assertTrue(told[0].stdout.startswith("usage: python3 -m tlutflow.tests [-h]"))
        self.assertEqual(told[1].stdout, "test_words.Progress.test_work_that_takes_long\n")


class Sources(unittest.TestCase):
    def test_python_3_9_and_length(self):
        paths = glob.glob(f"{TOP}/tlutflow/**/*.py", recursive=True) + glob.glob(f"{TOP}/tools/packing/*.py") + [f"{TOP}/flow"]
        paths += [f"{TOP}/tools/{name}.py" for name in ("install", "uninstall", "build_program", "progress", "release", "sources", "unproved")]
        self.assertGreater(len(paths), 30)
        for path in paths:
            with open(path, encoding="utf-8") as file:
                text = file.read()
            ast.parse(text, path, feature_version=(3, 9))
            self.assertLess(text.count("\n"), 400, path)
