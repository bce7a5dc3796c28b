"""The manifest of an installation: what is left after an installation or its removal is cut off, for the next one to repeat or undo."""

import contextlib
import importlib.util
import os
import shutil
from unittest import mock

from tlutflow.tests.helpers import TOP, InFolder

SPEC = importlib.util.spec_from_file_location("manifest", f"{TOP}/tools/packing/manifest.py")
assert SPEC and SPEC.loader
manifest = importlib.util.module_from_spec(SPEC)
SPEC.loader.exec_module(manifest)
# What changes a folder, and hands what is there to the disk.
CALLS = ("mkdir", "chmod", "replace", "remove", "rmdir", "fsync")
FIRST = {"bin/tlut": "1", "lib/tlut/program/tlut": "1", "lib/tlut/flow.py": "1", "share/doc/tlut/docs/page.md": "1", "share/old/page": "1"}
SECOND = {**{path: "2" for path in FIRST if "old" not in path}, "share/new/page": "2"}


class CutOff(BaseException):
    """The installation ends here."""


class Interrupted(InFolder):
    def setUp(self):
        super().setUp()
        quick = mock.patch.object(manifest.os, "fsync", lambda number: None)
        quick.start()
        self.addCleanup(quick.stop)
        self.root = f"{self.folder}/prefix"
        self.trees = [self.tree("first", FIRST), self.tree("second", SECOND)]

    def tree(self, name: str, files: dict) -> str:
        for path, text in files.items():
            os.makedirs(os.path.dirname(f"{self.folder}/{name}/{path}"), exist_ok=True)
            self.put(f"{name}/{path}", text)
        os.symlink("tlut", f"{self.folder}/{name}/bin/tlut-compact")
        return f"{self.folder}/{name}"

    def begin(self, before: int) -> None:
        """A prefix with a file of somebody else, and with the first versions that are installed."""
        shutil.rmtree(self.root, ignore_errors=True)
        os.makedirs(f"{self.root}/bin")
        self.put("prefix/bin/other", "mine")
        for tree in self.trees[:before]:
            manifest.install(tree, self.root)

    def listed(self) -> set:
        return {os.path.relpath(f"{at}/{name}", self.root) for at, folders, names in os.walk(self.root) for name in [*folders, *names]}

    @contextlib.contextmanager
    def cut_off(self, after: int):
        """The call that comes after so many is the last one, and isn't done. Yields how many there were."""
        seen = [0]

        def counted(call):
            def counting(*words, **named):
                seen[0] += 1
                if seen[0] > after:
                    raise CutOff
                return call(*words, **named)

            return counting

        with contextlib.ExitStack() as stack:
            for name in CALLS:
                stack.enter_context(mock.patch.object(manifest.os, name, counted(getattr(os, name))))
            yield seen

    def try_each(self, before: int, work) -> None:
        """Cuts the work off at each place, and repeats or undoes it afterwards."""
        for undo in (True, False):
            after = 0
            while True:
                self.begin(before)
                try:
                    with self.cut_off(after):
                        work()
                    break
                except CutOff:
                    after += 1
                with self.subTest(before=before, undo=undo, after=after):
                    if not undo:
                        manifest.install(self.trees[1], self.root)
                        self.assertEqual(self.listed() - {"lib", "lib/tlut", "lib/tlut/manifest"}, self.wanted())
                    if undo and not os.path.lexists(f"{self.root}/lib/tlut"):
                        self.assertRaises(manifest.Refused, manifest.uninstall, self.root)
                    else:
                        self.assertEqual(manifest.uninstall(self.root)[1], [])
                    self.assertEqual(self.listed() - {"lib"}, {"bin", "bin/other"})
            self.assertGreater(after, 10)

    def wanted(self) -> set:
        paths = {"bin/other", "bin/tlut-compact", *SECOND}
        return paths | {folder for path in paths for folder in manifest.folders_above(path)} - {"lib", "lib/tlut"}

    def test_an_installation(self):
        for before in (0, 1):
            self.try_each(before, lambda: manifest.install(self.trees[1], self.root))

    def test_a_removal(self):
        self.try_each(1, lambda: manifest.uninstall(self.root))

    def test_it_is_on_the_disk_before_it_is_told(self):
        self.begin(0)
        kept = []
        with mock.patch.object(manifest.os, "fsync", lambda number: kept.append(os.readlink(f"/proc/self/fd/{number}"))):
            manifest.install(self.trees[0], self.root)
        self.assertEqual({path.removesuffix(".new-tlut") for path in kept if path.endswith(".new-tlut")}, {f"{self.root}/{it}" for it in FIRST})
        self.assertEqual(kept[:3], [f"{self.root}/lib/tlut/manifest.new", f"{self.root}/lib", f"{self.root}/lib/tlut"])
        self.assertEqual(kept[-3:], kept[:3])

    def test_all_may_read_it(self):
        before = os.umask(0o077)
        try:
            shutil.rmtree(self.root, ignore_errors=True)
            for path in FIRST:
                os.chmod(f"{self.trees[0]}/{path}", 0o700 if path.startswith("bin") else 0o600)
            manifest.install(self.trees[0], self.root)
        finally:
            os.umask(before)
        for path in ("", *self.listed()):
            full = f"{self.root}/{path}"
            if not os.path.islink(full):
                self.assertEqual(os.stat(full).st_mode & 0o777, 0o755 if os.path.isdir(full) or path == "bin/tlut" else 0o644, path)

    def test_a_manifest_with_other_places_is_refused(self):
        self.begin(1)
        self.put("mine", "mine")
        path = f"{self.root}/lib/tlut/manifest"
        with open(path, encoding="utf-8") as file:
            text = file.read()
        for line in ("# folder ..", "# link ../mine x", f"{'0' * 64}  ../mine", f"{'0' * 64}  bin/../../mine", f"{'0' * 64}  {self.folder}/mine"):
            with open(path, "w", encoding="utf-8") as file:
                file.write(f"{text}# unfinished\n{line}\n")
            with self.assertRaisesRegex(manifest.Refused, "isn't below"):
                manifest.uninstall(self.root)
        self.assertTrue(os.path.exists(f"{self.folder}/mine"))
