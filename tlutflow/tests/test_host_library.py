"""Where the companion finds the library for host programs, and the number of the version."""

import os
import re
import shutil
import subprocess
import sys
import unittest

from tlutflow.tests.helpers import TOP, InFolder, flow

FIND = "import sys; sys.path.insert(0, sys.argv[1]); from tlutflow.host_library import library; print(library(None))"


class Library(InFolder):
    def setUp(self) -> None:
        super().setUp()
        os.makedirs(f"{self.folder}/prefix/lib/tlut")
        shutil.copytree(f"{TOP}/tlutflow", f"{self.folder}/prefix/lib/tlut/tlutflow", ignore=shutil.ignore_patterns("tests", "__pycache__"))

    def found(self, **variables: str) -> subprocess.CompletedProcess:
        """What a companion that is installed below `prefix` finds."""
        words = [sys.executable, "-c", FIND, f"{self.folder}/prefix/lib/tlut"]
        environment = {name: text for name, text in os.environ.items() if name != "TLUT_HOST_LIBRARY"}
        return subprocess.run(words, capture_output=True, text=True, env={**environment, **variables}, check=False)

    @unittest.skipIf(not shutil.which("cc"), "there is no C compiler")
    def test_where_it_is_looked_for(self):
        """The variable is first, then the place beside the companion, then the loader."""
        self.assertIn("--library or the variable TLUT_HOST_LIBRARY names it", self.found().stderr)
        os.makedirs(f"{self.folder}/loader")
        source = self.put("empty.c", "int tlut_open(void) { return 0; }\n")
        subprocess.run(["cc", "-shared", "-fPIC", "-o", f"{self.folder}/loader/libtlut_host.so.1", source], check=True)
        self.assertEqual(self.found(LD_LIBRARY_PATH=f"{self.folder}/loader").stdout, f"{self.folder}/loader/libtlut_host.so.1\n")
        shutil.copy(f"{self.folder}/loader/libtlut_host.so.1", f"{self.folder}/prefix/lib")
        self.assertEqual(self.found(LD_LIBRARY_PATH=f"{self.folder}/loader").stdout, f"{self.folder}/prefix/lib/libtlut_host.so.1\n")
        self.assertEqual(self.found(TLUT_HOST_LIBRARY="/x").stdout, "/x\n")

    def test_bits_takes_one(self):
        program = self.put("tlut", "#!/bin/sh\necho params 1 bits 4\n")
        os.chmod(program, 0o755)
        pack, script = self.put("p.ppc", ""), self.put("s", "")
        self.assert_fault(flow("bits", pack, script, "--tlut", program, "--library", f"{self.folder}/no.so"), "no.so")
        self.assert_fault(flow("bits", pack, script, "--tlut", program, TLUT_HOST_LIBRARY=f"{self.folder}/other.so"), "other.so")


class Version(unittest.TestCase):
    def test_the_companion_prints_the_number_of_the_file(self):
        with open(f"{TOP}/tlutflow/VERSION", encoding="utf-8") as file:
            number = file.read()
        self.assertRegex(number, r"^\d+\.\d+\.\d+\n$")
        ran = subprocess.run([f"{TOP}/flow", "--version"], capture_output=True, text=True, check=True)
        self.assertEqual(ran.stdout, f"flow {number}")
        with open(f"{TOP}/include/tlut_host.h", encoding="utf-8") as file:
            found = dict(re.findall(r"^#define (TLUT_VERSION\w*) (\S+)$", file.read(), re.MULTILINE))
        first, second, third = map(int, number.split("."))
        self.assertEqual(found, {"TLUT_VERSION": f'"{number.strip()}"', "TLUT_VERSION_NUMBER": str(10000 * first + 100 * second + third)})
        with open(f"{TOP}/CHANGELOG.md", encoding="utf-8") as file:
            self.assertEqual(re.findall(r"^## (\d\S*\d) \(", file.read(), re.MULTILINE)[0], number.strip())
