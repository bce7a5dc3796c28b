"""The Debian packages: tlut, libtlut-host1 and libtlut-host-dev."""

from __future__ import annotations

import glob
import hashlib
import os
import re
import shutil
import time
from typing import NamedTuple

from packing import archive, proved, tree
from packing.manifest import HOME
from packing.proved import Facts

REVISION = "1"
LICENCE = """Format: https://www.debian.org/doc/packaging-manuals/copyright-format/1.0/
Upstream-Name: TLUT Flow

Files: *
Copyright: {year} {author}
License: none-yet
 The owner has not chosen a licence yet. Until then nothing is granted
 beyond what the law allows.
"""


class Package(NamedTuple):
    """What a package is for, as its control file has it."""

    name: str
    section: str
    about: str
    text: str
    fields: dict[str, str]


PROGRAM = Package(
    "tlut",
    "electronics",
    "formally proved FPGA technology mapper with tunable LUTs",
    """TLUT Flow maps netlists in BLIF or AIGER to lookup tables (LUTs) of K
inputs at the least depth, and plays the mapped circuit. Inputs that change
seldom are its parameters: they are in the LUTs' configuration bits.
Everything that the mapper outputs is formally proved correct.
.
The package has the programs tlut and tlut-compact, which need a processor
with x86-64-v2, and the companion tlut-flow, which leads from a design in
Verilog to a netlist and shows what was mapped.""",
    {"Depends": "libc6 (>= {libc}), python3 (>= 3.9)", "Suggests": "yosys, berkeley-abc, graphviz, iverilog, libtlut-host1"},
)
SHARED = Package(
    "libtlut-host1",
    "libs",
    "run-time specialiser of TLUT Flow, shared library",
    """A host program opens a pack of the mapper tlut with this library, gives new
values to parameters, and gets the configuration bits to rewrite. Its
functions are formally proved correct.""",
    {"Depends": "libc6 (>= {libc})", "Multi-Arch": "same"},
)
DEVELOPMENT = Package(
    "libtlut-host-dev",
    "libdevel",
    "run-time specialiser of TLUT Flow, for development",
    """The header, the archive and the pkg-config file of the library by which a
host program plays packs of the mapper tlut.""",
    {"Depends": "libtlut-host1 (= {version})", "Multi-Arch": "same"},
)
# What compiles the companion for the Python that is installed, and removes that again.
POSTINST = """#!/bin/sh
set -e
if [ "$1" = configure ] && command -v py3compile >/dev/null; then
    py3compile -p tlut /usr/lib/tlut
fi
"""
PRERM = """#!/bin/sh
set -e
if command -v py3clean >/dev/null; then
    py3clean -p tlut
fi
"""
# Why lintian's remark on a package doesn't count.
OVERRIDE = """# the bytes are those that the toolchain built, so that everyone can build and compare them
{name}: unstripped-binary-or-object
"""
# The library's packages by architecture: the folder for libraries, and the prefix of the compiler.
ARCHITECTURES = {"amd64": ("lib/x86_64-linux-gnu", ""), "arm64": ("lib/aarch64-linux-gnu", "aarch64-linux-gnu-")}


def libc_of(root: str) -> str:
    """The least version of the C library that the programs and shared objects below a folder need."""
    needed = [(2, 17)]
    for path in proved.compiled(root):
        with open(f"{root}/{path}", "rb") as file:
            needed += [(int(major), int(minor)) for major, minor in re.findall(rb"GLIBC_(\d+)\.(\d+)", file.read())]
    return ".".join(map(str, max(needed)))


def size_of(root: str) -> int:
    """The size of what is installed, in kibibytes."""
    files = [f"{at}/{name}" for at, _, names in os.walk(root) for name in names]
    return sum(-(-os.lstat(it).st_size // 1024) for it in files)


def control(root: str, package: Package, architecture: str, facts: Facts) -> None:
    """Writes the control file and the checksums of a package."""
    version = f"{facts.version}-{REVISION}"
    values = {"libc": libc_of(root), "version": version}
    fields = {"Package": package.name, "Version": version, "Architecture": architecture, "Maintainer": facts.author, "Section": package.section}
    fields.update({"Priority": "optional", "Installed-Size": str(size_of(root))})
    fields.update({name: text.format(**values) for name, text in package.fields.items()})
    lines = [f"{name}: {text}" for name, text in fields.items()]
    lines += [f"Description: {package.about}", *(f" {line}" for line in package.text.splitlines()), ""]
    sums = [f"{md5}  {path}" for path, md5 in md5_of(root)]
    tree.write(f"{root}/DEBIAN/control", "\n".join(lines))
    tree.write(f"{root}/DEBIAN/md5sums", "\n".join([*sums, ""]))


def md5_of(root: str) -> list[tuple[str, str]]:
    """The MD5 sum of each file, by which `dpkg --verify` compares."""
    found = []
    for at, _, names in os.walk(root):
        for name in names:
            path = f"{at}/{name}"
            if not os.path.islink(path) and at != f"{root}/DEBIAN":
                with open(path, "rb") as file:
                    found.append((os.path.relpath(path, root), hashlib.md5(file.read(), usedforsecurity=False).hexdigest()))
    return sorted(found)


def texts(root: str, package: Package, facts: Facts) -> None:
    """Writes a package's licence and its changes."""
    doc = f"{root}/usr/share/doc/{package.name}"
    when = time.gmtime(facts.when)
    tree.write(f"{doc}/copyright", LICENCE.format(year=when.tm_year, author=facts.author))
    line = time.strftime("%a, %d %b %Y %H:%M:%S +0000", when)
    if package is not DEVELOPMENT:
        tree.write(f"{root}/usr/share/lintian/overrides/{package.name}", OVERRIDE.format(name=package.name))
    head = f"tlut ({facts.version}-{REVISION}) unstable; urgency=medium\n\n  * Release {facts.version}, see CHANGELOG.md of the package tlut.\n\n"
    tree.write(f"{doc}/changelog.Debian", f"{head} -- {facts.author}  {line}\n")
    archive.gzipped(f"{doc}/changelog.Debian")


def finished(root: str, package: Package, architecture: str, facts: Facts, folder: str) -> str:
    """Packs a package, and returns the name of its file."""
    texts(root, package, facts)
    control(root, package, architecture, facts)
    name = f"{package.name}_{facts.version}-{REVISION}_{architecture}.deb"
    archive.deb(root, f"{folder}/{name}", facts.when)
    return name


def program(room: str, facts: Facts, line: str, folder: str, compilers: str) -> str:
    """The package of the programs."""
    root = f"{room}/tlut"
    tree.programs(f"{root}/usr", line)
    tree.docs(f"{root}/usr")
    # what dpkg removes needs no other command
    shutil.rmtree(f"{root}/usr/{HOME}/tools/packing")
    for name in ("shared.py", "uninstall.py"):
        os.remove(f"{root}/usr/{HOME}/tools/{name}")
    for path in glob.glob(f"{root}/usr/share/man/man1/*.1"):
        archive.gzipped(path)
    os.rename(f"{root}/usr/{tree.DOC}/CHANGELOG.md", f"{root}/usr/{tree.DOC}/changelog")
    archive.gzipped(f"{root}/usr/{tree.DOC}/changelog")
    proved.write(root, f"{root}/usr/{tree.DOC}/PROVED.txt", facts, "/", compilers)
    for name, text in (("postinst", POSTINST), ("prerm", PRERM)):
        tree.write(f"{root}/DEBIAN/{name}", text)
        os.chmod(f"{root}/DEBIAN/{name}", 0o755)
    return finished(root, PROGRAM, "amd64", facts, folder)


def split(root: str, other: str, libdir: str) -> None:
    """Moves what is for development out of an installed library to another folder."""
    os.makedirs(f"{other}/usr/{libdir}")
    for path in ("usr/include", f"usr/{libdir}/libtlut_host.a", f"usr/{libdir}/libtlut_host.so", f"usr/{libdir}/pkgconfig"):
        os.makedirs(os.path.dirname(f"{other}/{path}"), exist_ok=True)
        os.rename(f"{root}/{path}", f"{other}/{path}")


def library(room: str, facts: Facts, architecture: str, folder: str, compilers: str) -> list[str]:
    """The packages of the library for an architecture."""
    libdir, cross = ARCHITECTURES[architecture]
    shared, development = f"{room}/shared-{architecture}", f"{room}/development-{architecture}"
    tree.library(f"{shared}/usr", "/usr", libdir, cross)
    split(shared, development, libdir)
    tree.write(f"{shared}/DEBIAN/shlibs", "libtlut_host 1 libtlut-host1\n")
    tree.write(f"{shared}/DEBIAN/triggers", "activate-noawait ldconfig\n")
    tree.copy(f"{tree.TOP}/docs/host.md", f"{development}/usr/share/doc/libtlut-host-dev/host.md", 0o644)
    shutil.copytree(f"{tree.TOP}/examples/host", f"{development}/usr/share/doc/libtlut-host-dev/examples", ignore=tree.LEFT_OUT)
    for root, package in ((shared, SHARED), (development, DEVELOPMENT)):
        proved.write(root, f"{root}/usr/share/doc/{package.name}/PROVED.txt", facts, "/", compilers)
    return [finished(shared, SHARED, architecture, facts, folder), finished(development, DEVELOPMENT, architecture, facts, folder)]
