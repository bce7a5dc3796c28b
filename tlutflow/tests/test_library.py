"""The built library for C: what it exports, how it is installed, and the header's examples. Left out where it isn't built (docs/host.md)."""

import os
import re
import shutil
import subprocess
import tempfile
import unittest
from collections.abc import Iterator

from tlutflow.host_calls import FUNCTIONS
from tlutflow.tests.helpers import DATA, TOP

INCLUDE = f"{TOP}/include"
BUILT = f"{INCLUDE}/build"


def made(*words: str, **variables: str) -> subprocess.CompletedProcess:
    """A call of make in include/."""
    return subprocess.run(["make", "-C", INCLUDE, *words], capture_output=True, text=True, check=False, env={**os.environ, **variables})


def printed(*words: str) -> str:
    """What a program prints."""
    return subprocess.run(words, capture_output=True, text=True, check=True).stdout


def is_current() -> bool:
    """Whether the library is built from the sources that are there, so that make doesn't prove them."""
    try:
        with open(f"{BUILT}/proved.sum", encoding="ascii") as file:
            return file.read().split()[-1] == printed(f"{INCLUDE}/sources_sum.sh").strip()
    except OSError:
        return False


def files_in(folder: str) -> Iterator[str]:
    """The files and links in a folder and below it."""
    for place, _, names in os.walk(folder):
        yield from (os.path.relpath(f"{place}/{name}", folder) for name in names)


def example_of(header: str, first: str) -> str:
    """The lines of an example of the header, without the comment's stars, from one line on."""
    lines = [line[7:] for line in header.splitlines() if line.startswith(" *     ")]
    found = lines[next(place for place, line in enumerate(lines) if line.startswith(first)) :]
    return "\n".join(found[: 1 + next(place for place, line in enumerate(found) if "close(" in line)])


@unittest.skipUnless(is_current() and shutil.which("readelf"), "the library isn't built from these sources, or binutils are missing")
class LibraryTest(unittest.TestCase):
    def test_exports(self) -> None:
        """The shared object and the archive define the functions of the header, and nothing else that others could clash with."""
        for words in (["nm", "-D", f"{BUILT}/libtlut_host.so"], ["nm", "-g", f"{BUILT}/libtlut_host.a"]):
            self.assertEqual(sorted(re.findall(r"^\S+ [A-Z] (\S+)$", printed(*words, "--defined-only"), re.M)), sorted([*FUNCTIONS, "tlut_version"]))

    def test_shared_object(self) -> None:
        """Its soname has a number, calls are bound as it is loaded, no page is both written and run, and only libc is needed."""
        told = printed("readelf", "-dlW", f"{BUILT}/libtlut_host.so")
        self.assertIn("Library soname: [libtlut_host.so.1]", told)
        self.assertRegex(told, r"FLAGS_1.*NOW")
        self.assertIn("GNU_RELRO", told)
        self.assertRegex(told, r"GNU_STACK.* RW ")
        self.assertEqual(re.findall(r"NEEDED.*\[(.*)\]", told), ["libc.so.6"])

    def test_install(self) -> None:
        """Files go into DESTDIR, which the pkg-config file doesn't name, and uninstall removes these files and no others."""
        with tempfile.TemporaryDirectory(suffix=" x") as folder:
            words = ["PREFIX=/opt/t", "libdir=/opt/t/lib/a b", f"DESTDIR={folder}"]
            os.makedirs(f"{folder}/opt/t/lib/a b")
            with open(f"{folder}/opt/t/lib/a b/other.so", "w", encoding="ascii"):
                pass
            ran = made("install", *words)
            self.assertEqual(ran.returncode, 0, ran.stderr)
            library = [f"opt/t/lib/a b/{name}" for name in ("libtlut_host.a", "libtlut_host.so", "libtlut_host.so.1", "other.so", "pkgconfig/tlut_host.pc")]
            self.assertEqual(sorted(files_in(folder)), ["opt/t/include/tlut_host.h", *library])
            with open(f"{folder}/opt/t/lib/a b/pkgconfig/tlut_host.pc", encoding="ascii") as file:
                self.assertEqual(file.read().split("\n\n")[0].splitlines(), ["prefix=/opt/t", "libdir=/opt/t/lib/a b", "includedir=/opt/t/include"])
            ran = made("uninstall", *words)
            self.assertEqual((ran.returncode, list(files_in(folder))), (0, ["opt/t/lib/a b/other.so"]), ran.stderr)

    @unittest.skipUnless(shutil.which("pkg-config"), "pkg-config isn't installed")
    def test_pkg_config(self) -> None:
        """A program is built and run with what pkg-config says of the installed library."""
        with tempfile.TemporaryDirectory() as folder:
            self.assertEqual(made("install", f"PREFIX={folder}").returncode, 0)
            environment = {**os.environ, "PKG_CONFIG_PATH": f"{folder}/lib/pkgconfig"}
            ran = subprocess.run(["pkg-config", "--cflags", "--libs", "tlut_host"], capture_output=True, text=True, check=True, env=environment)
            words = ["cc", "-o", f"{folder}/filter", f"{TOP}/examples/host/filter.c", *ran.stdout.split(), f"-Wl,-rpath,{folder}/lib"]
            subprocess.run(words, check=True)
            told = printed(f"{folder}/filter", f"{DATA}/fir.ppc", "5", "7", "6")
            self.assertRegex(told, r"^set 5 7 6 writes [1-9]")

    def test_flags(self) -> None:
        """The flags of a packager reach the compiler, and its folders the recipes."""
        ran = made("-n", "-W", "heap.c", "CFLAGS=-Og -fcf-protection", "CPPFLAGS=-DPACKAGED", "LDFLAGS=-Wl,-z,pack-relative-relocs", "all")
        compiled, linked = (next(line for line in ran.stdout.splitlines() if word in line) for word in ("-c heap.c", "-shared"))
        self.assertRegex(compiled, "-DPACKAGED -Og -fcf-protection .*-c heap.c")
        self.assertRegex(linked, "-Og -fcf-protection -shared .*-Wl,-z,pack-relative-relocs$")

    def test_examples(self) -> None:
        """The header's examples compile without a warning, those of uninitialised values included."""
        with open(f"{INCLUDE}/tlut_host.h", encoding="ascii") as file:
            header = file.read()
        first, second = example_of(header, "tlut_host host"), example_of(header, "tlut_paced device")
        body = "\n".join([first, second]).replace("{ ... writes[i].address, writes[i].bit ... }", "send(writes[i]);")
        body = body.replace("{ ... send the writes ... }", "send(writes[0]);").replace("{ ... }", "return;")
        text = '#include "tlut_host.h"\nvoid send(tlut_write);\nvoid play(const uint8_t *, size_t);\n'
        text += f"void play(const uint8_t *bytes, size_t length)\n{{\n{body}\n}}\n"
        words = ["cc", "-x", "c", "-", "-std=c99", "-O2", "-Wall", "-Wextra", "-Wpedantic", "-Werror", f"-I{INCLUDE}", "-c", "-o", os.devnull]
        ran = subprocess.run(words, input=text, capture_output=True, text=True, check=False)
        self.assertEqual(ran.returncode, 0, ran.stderr)


class MakefileTest(unittest.TestCase):
    """What the Makefile refuses before it builds."""

    def test_relative_paths(self) -> None:
        """A relative path would be one in include/."""
        for word in ("PREFIX=out", "libdir=out/lib", "includedir=./x", "DESTDIR=../stage"):
            ran = made("-n", "install", word)
            self.assertEqual(ran.returncode, 2)
            name = word.split("=")[0]
            self.assertRegex(ran.stderr, f"{'prefix' if name == 'PREFIX' else name} is the relative path .*; give an absolute one")

    def test_no_toolchain(self) -> None:
        """Without `rt` nothing is built, and what is missing is named."""
        with tempfile.TemporaryDirectory() as folder:
            ran = made("B=" + folder, "RT=no-such-rt", "all")
            self.assertEqual((ran.returncode, os.listdir(folder)), (2, []))
            self.assertIn("no-such-rt isn't installed", ran.stderr)

    def test_every_export_is_counted(self) -> None:
        """The test of allocations calls each function of the header where it may neither allocate nor free."""
        with open(f"{INCLUDE}/tests/allocations.c", encoding="ascii") as file:
            text = file.read()
        for name in FUNCTIONS:
            self.assertRegex(text, rf"QUIET\(\w+, {name}\(")


if __name__ == "__main__":
    unittest.main()
