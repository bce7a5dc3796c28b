"""Parts of a release that need no toolchain: archives, PROVED.txt, fields of packages. `tools/try_release.py` tries the whole."""

import os
import shutil
import subprocess
import sys
import tarfile
from unittest import mock

from tlutflow.tests.helpers import TOP, InFolder


class Release(InFolder):
    def setUp(self) -> None:
        super().setUp()
        sys.path.insert(0, f"{TOP}/tools")
        self.addCleanup(sys.path.remove, f"{TOP}/tools")
        from packing import archive, debian, manifest, proved

        self.archive, self.debian, self.manifest, self.proved = archive, debian, manifest, proved

    def tree(self, name: str, order: int) -> str:
        """A folder with the same contents, made in one order or the other, with other times and other rights of the group."""
        top = f"{self.folder}/{name}"
        for path in ["bin", "lib/program"][::order]:
            os.makedirs(f"{top}/{path}")
        for path, mode in [("lib/program/tlut", 0o755), ("lib/text", 0o644)][::order]:
            self.put(f"{name}/{path}", path)
            os.chmod(f"{top}/{path}", mode | (0o020 if order < 0 else 0))
            os.utime(f"{top}/{path}", (order + 5, order + 5))
        os.symlink("../lib/program/tlut", f"{top}/bin/tlut")
        return top

    def test_an_archive_depends_on_its_contents_alone(self):
        packed = []
        for name, order in (("a", 1), ("b", -1)):
            target = f"{self.folder}/{name}.tar.gz"
            self.archive.tar_gz(self.tree(name, order), "top-1.0", target, 1000000000)
            with open(target, "rb") as file:
                packed.append(file.read())
        self.assertEqual(packed[0], packed[1])
        with tarfile.open(f"{self.folder}/a.tar.gz") as archive:
            found = {it.name: (it.mode, it.mtime, it.uname, it.linkname) for it in archive.getmembers()}
        self.assertEqual(
            found,
            {
                **{f"top-1.0{path}": (0o755, 1000000000, "root", "") for path in ("", "/bin", "/lib", "/lib/program", "/lib/program/tlut")},
                "top-1.0/lib/text": (0o644, 1000000000, "root", ""),
                "top-1.0/bin/tlut": (0o777, 1000000000, "root", "../lib/program/tlut"),
            },
        )

    def test_proved_lists_what_was_compiled_and_can_be_checked(self):
        top = self.tree("a", 1)
        self.put("a/lib/libx.so.1", "x")
        os.symlink("libx.so.1", f"{top}/lib/libx.so")
        facts = self.proved.Facts("1.2.3", "0123abc", 0, "n <e>", "kit", "7 passed, 0 failed")
        self.proved.write(top, f"{top}/PROVED.txt", facts, ".", "cc 1")
        with open(f"{top}/PROVED.txt", encoding="utf-8") as file:
            text = file.read()
        for part in ("TLUT Flow 1.2.3", "0123abc", "kit", "7 passed, 0 failed", "cc 1"):
            self.assertIn(part, text)
        command = next(line.strip() for line in text.splitlines() if "sha256sum -c" in line)
        ran = subprocess.run(["sh", "-c", command], cwd=top, capture_output=True, text=True, check=False)
        self.assertEqual((ran.returncode, ran.stdout), (0, "lib/libx.so.1: OK\nlib/program/tlut: OK\n"))
        self.put("a/lib/program/tlut", "other")
        self.assertEqual(subprocess.run(["sh", "-c", command], cwd=top, capture_output=True, check=False).returncode, 1)

    def test_the_gate_s_line_is_that_of_the_commit(self):
        with mock.patch.object(self.proved, "TOP", self.folder):
            self.assertIn("not run on this commit", self.proved.gate_line("abc"))
            os.mkdir(f"{self.folder}/out")
            self.put("out/gate.txt", "abc\n115 passed, 0 failed\n")
            self.assertEqual(self.proved.gate_line("abc"), "115 passed, 0 failed")
            self.assertIn("not run on this commit", self.proved.gate_line("abd"))

    def test_a_checkout_with_changes_is_refused(self):
        top = f"{self.folder}/clone"
        os.makedirs(f"{top}/tlutflow")
        shutil.copy(f"{TOP}/tlutflow/VERSION", f"{top}/tlutflow")
        git = ["git", "-C", top, "-c", "user.name=n", "-c", "user.email=e"]
        for words in (["init", "-q"], ["add", "."], ["commit", "-qm", "x"]):
            subprocess.run([*git, *words], check=True)
        with mock.patch.object(self.proved, "TOP", top):
            self.put("clone/further", "")
            with self.assertRaisesRegex(self.manifest.Refused, "git status"):
                self.proved.facts()
        with mock.patch.object(self.proved, "TOP", f"{top}/tlutflow"), self.assertRaisesRegex(self.manifest.Refused, "no clone"):
            self.proved.facts()

    def test_the_c_library_that_is_needed(self):
        self.tree("a", 1)
        self.put("a/lib/program/tlut", b"\0GLIBC_2.4\0GLIBC_2.34\0GLIBC_2.9\0")
        self.assertEqual(self.debian.libc_of(f"{self.folder}/a"), "2.34")
