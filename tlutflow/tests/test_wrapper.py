"""The wrapper `tlut`: its own words, what it passes on, and links to it."""

import os
import re
import subprocess

from tlutflow.tests.checkout import PROGRAM, Checkout
from tlutflow.tests.helpers import TOP

class Wrapper(Checkout):
    def test_what_is_passed_on_is_exact(self):
        for words in ((), ("",), ("run", "4", "a b", "*", "$x", "-", "\\", "é"), ("help", "run"), ("--help", ""), ("--version", "x"), ("-x",)):
            ran = self.call(f"{self.top}/tlut", *words)
            self.assertEqual((ran.returncode, ran.stdout, ran.stderr), (7, "".join(f"<{word}>" for word in words), "fault"))

    def test_an_empty_program_is_none(self):
        """One that was emptied in place is built again, which the toolchain that stands here refuses."""
        os.makedirs(f"{self.folder}/bin")
        path = self.put_rt("#!/bin/sh\nexit 1\n")
        self.assertEqual(self.call(f"{self.top}/tlut", "x", PATH=path).returncode, 7)
        with open(f"{self.top}/crates/tlut/out/tlut", "wb"):
            pass
        for _ in range(2):
            ran = self.call(f"{self.top}/tlut", "x", PATH=path)
            self.assertEqual((ran.returncode, ran.stdout), (1, ""))
            self.assertIn("tlut: ", ran.stderr)

    def test_the_limit_of_a_file_is_a_fault_of_writing(self):
        """The program inherits that the signal at the limit is ignored, also where the words are wrong."""
        self.put_program("tlut", "#!/bin/sh\nulimit -f 0\nprintf x > grown || exit 6\n")
        for words in (("gen", "1", "0"), ("rnu",)):
            self.assertEqual(self.call(f"{self.top}/tlut", *words).returncode, 6)

    def test_wrong_words_are_told_by_the_command_that_was_meant(self):
        self.put_program("tlut", PROGRAM.replace("exit 7", "echo >&2; exit 2"))
        for words, line in (
            (("run", "4", "a"), "tlut: run takes 6 arguments, and 2 were given: run K NETLIST PARAMS SCRIPT PORTS SPARES"),
            (("bits", "a", "b", "c"), "tlut: bits takes 2 arguments, and 3 were given: bits PACK SCRIPT"),
            (("spec", "7", "a", "b", "c"), "tlut: K is a digit from 2 to 6, and 7 was given: spec K NETLIST PARAMS OUT"),
            (("rnu",), "tlut: there is no command `rnu`; the commands are run, spec, map, bits, gen, repack, prove, audit, graph, pace"),
        ):
            ran = self.call(f"{self.top}/tlut", *words)
            self.assertEqual((ran.returncode, ran.stderr), (2, f"fault\n{line}\n"))
        ran = self.call(f"{self.top}/tlut", "spec", "4", "a", "b", "c")
        self.assertEqual((ran.returncode, ran.stderr), (2, "fault\n"))

    def test_the_program_for_few_tables(self):
        os.symlink("top/tlut", f"{self.folder}/tlut-compact")
        for words in ((), ("run", "4", "a b"), ("--compact",), ("help", "run")):
            shown = "compact" + "".join(f"<{word}>" for word in words)
            ran = self.call(f"{self.top}/tlut", "--compact", *words)
            self.assertEqual((ran.returncode, ran.stdout, ran.stderr), (3, shown, ""))
        self.assertEqual(self.call("./tlut-compact", "x").stdout, "compact<x>")
        self.assertEqual(self.call("./tlut-compact", "--compact", "x").stdout, "compact<x>")
        self.assertTrue(self.call(f"{self.top}/tlut", "--compact", "--help").stdout.startswith("TLUT Flow maps"))

    def test_links(self):
        os.makedirs(f"{self.folder}/a b")
        os.symlink("../top/tlut", f"{self.folder}/a b/first")
        os.symlink(f"{self.folder}/a b/first", f"{self.folder}/second")
        for path in (f"{self.folder}/a b/first", f"{self.folder}/second", "./second"):
            self.assertEqual(self.call(path, "x").stdout, "<x>")

    def test_help_has_the_forms_of_the_pages(self):
        texts = [self.call(f"{self.top}/tlut", word).stdout for word in ("help", "--help", "-h")]
        self.assertEqual(len(set(texts)), 1)
        forms = [line.strip() for line in texts[0].splitlines()]
        with open(f"{TOP}/README.md", encoding="utf-8") as file:
            page = file.read()
        table = re.findall(r"^\| `([a-z]+ [^`]+)` \|", page.split("## Commands")[1].split("## ")[0], re.MULTILINE)
        self.assertGreater(len(table), 7)
        for form in table:
            self.assertIn(form, forms)
        with open(f"{TOP}/docs/formats.md", encoding="utf-8") as file:
            statuses = re.findall(r"^\| (\d) \| \w+ \| (.+) \|$", file.read().split("## Status")[1], re.MULTILINE)
        self.assertEqual(len(statuses), 8)
        self.assertEqual([line for line in forms if re.match(r"\d  ", line)], [f"{number}  {meaning}" for number, meaning in statuses])

    def test_version(self):
        with open(f"{TOP}/tlutflow/VERSION", encoding="utf-8") as file:
            number = file.read().strip()
        self.assertEqual(self.call(f"{self.top}/tlut", "--version").stdout, f"TLUT Flow {number}, of no known commit\n")
        git = ["git", "-C", self.top, "-c", "user.name=n", "-c", "user.email=e"]
        for words in (["init", "-q"], ["add", "."], ["commit", "-qm", "x"]):
            subprocess.run([*git, *words], check=True)
        shown = self.call(f"{self.top}/tlut", "--version").stdout
        self.assertRegex(shown, rf"^TLUT Flow {re.escape(number)}, commit [0-9a-f]+ of \d{{4}}-\d\d-\d\d\n$")

    def test_words_of_install_and_release(self):
        forms = {"install": "install PREFIX, in the repository", "release": "release FOLDER, in the repository", "uninstall": "uninstall PREFIX"}
        for word, form in forms.items():
            for words in ((word,), (word, ""), (word, "a", "b"), ("--unproved", word, "a")):
                ran = self.call(f"{self.top}/tlut", *words)
                self.assertEqual((ran.returncode, ran.stdout, ran.stderr), (2, "", f"tlut: usage: {form}\n"), words)
        self.assertEqual(sorted(os.listdir(self.folder)), ["top"])
