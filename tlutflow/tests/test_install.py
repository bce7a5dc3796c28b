"""`tlut install` and `tlut uninstall`: what is there afterwards, and that nothing foreign is replaced or removed."""

import os
import shutil

from tlutflow.tests.checkout import Checkout
from tlutflow.tests.helpers import TOP

# Ends this very program by a signal when it imports a module.
SIGNAL = """import os, signal, sys
class Finder:
    def find_spec(self, name, path=None, target=None):
        if name == "tlutflow.commands.complete":
            os.kill(os.getpid(), signal.SIGTERM)
sys.meta_path.insert(0, Finder())
"""
LINKS = ("bin/tlut", "bin/tlut-compact", "bin/tlut-flow")


class Install(Checkout):
    def setUp(self) -> None:
        super().setUp()
        for name in ("README.md", "CHANGELOG.md"):
            shutil.copy(f"{TOP}/{name}", f"{self.top}/{name}")
        self.put_in("docs/page.md", "page\n")
        self.put_in("examples/mux/mux.par", "p 0\n")
        self.prefix = f"{self.folder}/pre fix"

    def install(self, prefix: str = "", status: int = 0, **variables: str) -> str:
        """Installs, and returns what is said on stderr."""
        ran = self.call(f"{self.top}/tlut", "install", prefix or self.prefix, **variables)
        self.assertEqual(ran.returncode, status, ran.stderr)
        self.assertEqual(ran.stderr.count("\n"), status)
        return ran.stderr

    def files(self, root: str = "") -> list[str]:
        """All files and links below the prefix."""
        top = root or self.prefix
        return sorted(os.path.relpath(f"{at}/{name}", top) for at, folders, names in os.walk(top) for name in [*folders, *names])

    def test_it_works_without_the_checkout(self):
        for _ in range(2):
            self.install()
        shutil.rmtree(self.top)
        self.assertEqual(self.call(f"{self.prefix}/bin/tlut", "run", "x").stdout, "<run><x>")
        for words in ((f"{self.prefix}/bin/tlut", "--compact"), (f"{self.prefix}/bin/tlut-compact",)):
            self.assertEqual(self.call(*words, "run", "x").stdout, "compact<run><x>")
        self.assertRegex(self.call(f"{self.prefix}/bin/tlut", "--version").stdout, r"^TLUT Flow [0-9.]+, of no known commit\n$")
        self.assertTrue(self.call(f"{self.prefix}/bin/tlut", "-h").stdout.startswith("TLUT Flow maps"))
        self.assertIn("usage: tlut-flow", self.call(f"{self.prefix}/bin/tlut-flow", "--help").stdout)
        for words in (("install", "x"), ("release", "x"), ("--unproved", "run")):
            ran = self.call(f"{self.prefix}/bin/tlut", *words)
            self.assertEqual((ran.returncode, ran.stderr.count("\n")), (2, 1), words)

    def test_an_empty_program_isnt_run(self):
        self.install()
        with open(f"{self.prefix}/lib/tlut/program/tlut", "wb"):
            pass
        ran = self.call(f"{self.prefix}/bin/tlut", "x")
        self.assertEqual((ran.returncode, ran.stdout, ran.stderr.count("is missing or empty")), (1, "", 1))

    def test_pages_and_completion(self):
        self.install()
        pages = {
            "tlut.1": (".TH TLUT 1", ".SH NAME", ".SH COMMANDS", ".SH EXIT STATUS", "run K NETLIST PARAMS SCRIPT PORTS SPARES"),
            "tlut-flow.1": (".TH TLUT-FLOW 1", ".SH BUILD", ".SH PREPARE", "usage: tlut\\-flow build"),
            "tlut-compact.1": (".so man1/tlut.1",),
        }
        with open(f"{TOP}/tlutflow/VERSION", encoding="utf-8") as file:
            number = file.read().strip()
        for name, parts in pages.items():
            with open(f"{self.prefix}/share/man/man1/{name}", encoding="utf-8") as file:
                page = file.read()
            for part in (*parts, *[f'"TLUT Flow {number}"'] * (name != "tlut-compact.1")):
                self.assertIn(part, page)
        with open(f"{self.prefix}/share/bash-completion/completions/tlut-flow", encoding="utf-8") as file:
            self.assertIn("complete -o filenames -F _tlut_flow", file.read())
        for name in ("README.md", "CHANGELOG.md", "docs/page.md", "examples/mux/mux.par"):
            self.assertTrue(os.path.isfile(f"{self.prefix}/share/doc/tlut/{name}"), name)

    def test_the_manifest_lists_all_and_can_be_checked(self):
        self.install()
        with open(f"{self.prefix}/lib/tlut/manifest", encoding="utf-8") as file:
            lines = file.read().splitlines()
        listed = [line.split(" ")[2] for line in lines if line.startswith(("# link", "# folder"))] + [line[66:] for line in lines if line[0] != "#"]
        self.assertEqual(sorted([*listed, "lib/tlut/manifest"]), self.files())
        checked = self.call("sh", "-c", 'cd "$1" && sha256sum --strict --quiet -c lib/tlut/manifest', "sh", self.prefix)
        self.assertEqual((checked.returncode, checked.stdout), (0, ""), checked.stderr)

    def test_uninstall_removes_all_and_nothing_else(self):
        os.makedirs(f"{self.prefix}/bin")
        for name in ("bin/other", "lib/tlut-other"):
            os.makedirs(os.path.dirname(f"{self.prefix}/{name}"), exist_ok=True)
            self.put(f"pre fix/{name}", "mine")
        before = self.files()
        self.install()
        self.call(f"{self.prefix}/bin/tlut-flow", "--help")
        ran = self.call(f"{self.top}/tlut", "uninstall", self.prefix)
        self.assertEqual((ran.returncode, ran.stderr), (0, ""))
        self.assertEqual(self.files(), before)
        self.assertEqual(self.call(f"{self.top}/tlut", "uninstall", self.prefix).returncode, 1)

    def test_an_installation_removes_itself(self):
        self.install()
        ran = self.call(f"{self.prefix}/bin/tlut", "uninstall", self.prefix)
        self.assertEqual((ran.returncode, ran.stderr, self.files()), (0, "", []))

    def test_what_is_not_ours_stays(self):
        for name in LINKS + ("lib/tlut/mine", "share/man/man1/tlut.1"):
            prefix = f"{self.folder}/{name.replace('/', '_')}"
            os.makedirs(os.path.dirname(f"{prefix}/{name}"))
            with open(f"{prefix}/{name}", "w", encoding="utf-8") as file:
                file.write("mine")
            before = self.files(prefix)
            self.assertIn("move it away", self.install(prefix, 1))
            self.assertEqual(self.files(prefix), before)
            with open(f"{prefix}/{name}", encoding="utf-8") as file:
                self.assertEqual(file.read(), "mine")

    def test_a_link_for_the_folder_is_refused(self):
        os.makedirs(f"{self.prefix}/lib")
        os.makedirs(f"{self.folder}/elsewhere")
        os.symlink(f"{self.folder}/elsewhere", f"{self.prefix}/lib/tlut")
        self.assertIn("is no installation", self.install(status=1))
        self.assertEqual(os.listdir(f"{self.folder}/elsewhere"), [])

    def test_what_was_changed_since_stays(self):
        self.install()
        os.remove(f"{self.prefix}/bin/tlut")
        self.put("pre fix/bin/tlut", "mine")
        self.assertIn("bin/tlut was changed since it was installed", self.install(status=1))
        ran = self.call(f"{self.top}/tlut", "uninstall", self.prefix)
        self.assertEqual((ran.returncode, ran.stderr.count("\n")), (1, 1))
        self.assertEqual(self.files(), ["bin", "bin/tlut"])

    def test_a_later_version_replaces_an_earlier_one(self):
        self.install()
        self.put_in("docs/page.md", "new\n")
        os.remove(f"{self.top}/examples/mux/mux.par")
        self.put_in("examples/new.par", "q 0\n")
        self.install()
        with open(f"{self.prefix}/share/doc/tlut/docs/page.md", encoding="utf-8") as file:
            self.assertEqual(file.read(), "new\n")
        self.assertFalse(os.path.exists(f"{self.prefix}/share/doc/tlut/examples/mux"))
        self.assertTrue(os.path.exists(f"{self.prefix}/share/doc/tlut/examples/new.par"))

    def test_an_installation_that_was_cut_off_can_be_repeated_or_removed(self):
        self.install()
        path = f"{self.prefix}/lib/tlut/manifest"
        with open(path, encoding="utf-8") as file:
            text = file.read()
        for word in ("install", "uninstall"):
            self.put("pre fix/lib/tlut/manifest", text.replace("\n", "\n# unfinished\n", 1))
            self.put("pre fix/share/doc/tlut/docs/page.md", "of another version\n")
            self.assertEqual(self.call(f"{self.top}/tlut", word, self.prefix).returncode, 0)
        self.assertEqual(self.files(), [])

    def test_a_signal_leaves_no_temporary_folder(self):
        """It comes when the pages are made, for which the companion is imported."""
        os.makedirs(f"{self.folder}/temporary")
        self.put("sitecustomize.py", SIGNAL)
        ran = self.call(f"{self.top}/tlut", "install", self.prefix, TMPDIR=f"{self.folder}/temporary", PYTHONPATH=self.folder, PYTHONDONTWRITEBYTECODE="1")
        self.assertEqual((ran.returncode, ran.stderr.count("\n"), os.listdir(f"{self.folder}/temporary")), (130, 1, []), ran.stderr)
        self.install()

    def test_destdir(self):
        self.install("/usr", DESTDIR=f"{self.folder}/destination")
        self.assertEqual(self.call(f"{self.folder}/destination/usr/bin/tlut", "x").stdout, "<x>")
        with open(f"{self.folder}/destination/usr/lib/tlut/manifest", encoding="utf-8") as file:
            self.assertNotIn("destination", file.read())
        ran = self.call(f"{self.top}/tlut", "uninstall", "/usr", DESTDIR=f"{self.folder}/destination")
        self.assertEqual((ran.returncode, self.files(f"{self.folder}/destination")), (0, ["usr"]))

    def test_a_prefix_that_can_t_be_written(self):
        self.put("file", "")
        self.install(f"{self.folder}/file", 1)
        self.install(f"{self.folder}/file/below", 1)
