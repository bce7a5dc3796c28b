"""Packs what a user needs on a machine without the toolchain: `./tlut release FOLDER` calls it, once the programs are built.

    python3 tools/release.py FOLDER VERSION

FOLDER gets tlut-NUMBER-x86_64.tar.gz, which works wherever it is unpacked; the Debian packages tlut, libtlut-host1 and libtlut-host-dev, the
latter two for amd64 and arm64; and SHA256SUMS. They have the programs, the library for host programs, the companion, man pages, completion,
docs and examples, and PROVED.txt: what they were made from, and how to check them. The same commit gives the same bytes. It needs `rt`,
`dpkg-deb`, `make`, and C compilers for x86-64 and aarch64 (aarch64-linux-gnu-gcc).
"""

from __future__ import annotations

import os
import shutil
import sys
import tempfile

import shared
from packing import archive, debian, proved, tree
from packing.manifest import HOME, Refused, sum_of
from packing.proved import Facts

README = """TLUT Flow {version}, for Linux on x86-64 with glibc {libc} or later.

  bin/tlut run 2 share/doc/tlut/examples/and2/and2.blif share/doc/tlut/examples/and2/none.par share/doc/tlut/examples/and2/one.scr 0 0

runs where this folder is, or by links to the files in bin. To install it, copy bin, include, lib and share to /usr/local or to another
prefix. The companion, bin/tlut-flow, needs Python 3.9 or later. lib and include have the library for host programs, lib/aarch64-linux-gnu
the one for aarch64. share/doc/tlut/README.md is the first page to read; PROVED.txt says how to check the programs.
"""
NEEDED = ["rt", "git", "make", "cc", "dpkg-deb", "aarch64-linux-gnu-gcc"]
AARCH64 = "lib/aarch64-linux-gnu"
# What a packager may set for the library, and a release doesn't take.
VARIABLES = ("CPU", "CC", "AR", "LD", "OBJCOPY", "CFLAGS", "CPPFLAGS", "LDFLAGS", "RT", "MAKEFLAGS")


def relocate(root: str, libdir: str) -> None:
    """Has a pkg-config file find its files beside it, wherever the archive is unpacked."""
    path = f"{root}/{libdir}/pkgconfig/tlut_host.pc"
    with open(path, encoding="utf-8") as file:
        text = file.read()
    up = "/".join([".."] * (libdir.count("/") + 2))
    tree.write(path, text.replace("/usr/local", f"${{pcfiledir}}/{up}"))


def tarball(room: str, facts: Facts, line: str, folder: str, compilers: str) -> str:
    """The archive, and the name of its file."""
    root, name = f"{room}/archive", f"tlut-{facts.version}-x86_64"
    tree.programs(root, line)
    tree.docs(root)
    # what is unpacked is removed by removing the folder
    shutil.rmtree(f"{root}/{HOME}/tools/packing")
    for tool in ("shared.py", "uninstall.py"):
        os.remove(f"{root}/{HOME}/tools/{tool}")
    for libdir, cross in (("lib", ""), (AARCH64, "aarch64-linux-gnu-")):
        tree.library(root, "/usr/local", libdir, cross)
        relocate(root, libdir)
    tree.write(f"{root}/README.txt", README.format(version=facts.version, libc=debian.libc_of(f"{root}/{HOME}")))
    proved.write(root, f"{root}/PROVED.txt", facts, ".", compilers)
    archive.tar_gz(root, name, f"{folder}/{name}.tar.gz", facts.when)
    return f"{name}.tar.gz"


def release(folder: str, line: str) -> list[str]:
    """Makes all files of a release, and returns their names."""
    lacking = [name for name in NEEDED if not shutil.which(name)]
    if lacking:
        raise Refused(f"a release needs {lacking[0]}, which is not on the PATH")
    facts = proved.facts()
    for name in VARIABLES:
        os.environ.pop(name, None)
    compilers = "; ".join(proved.said(name, "--version").splitlines()[0] for name in ("cc", "aarch64-linux-gnu-gcc"))
    os.makedirs(folder, exist_ok=True)
    with tempfile.TemporaryDirectory(prefix="tlut-") as room:
        names = [tarball(room, facts, line, folder, compilers), debian.program(room, facts, line, folder, compilers)]
        for architecture in debian.ARCHITECTURES:
            names += debian.library(room, facts, architecture, folder, compilers)
    tree.write(f"{folder}/SHA256SUMS", "".join(f"{sum_of(f'{folder}/{name}')}  {name}\n" for name in sorted(names)))
    return [*names, "SHA256SUMS"]


def main() -> int:
    parser = shared.words(__doc__)
    parser.add_argument("folder", metavar="FOLDER", type=shared.path_of, help="the folder for the files")
    parser.add_argument("version", metavar="VERSION", help="the line of `tlut --version`")
    given = parser.parse_args()
    try:
        names = release(given.folder, given.version)
    except Refused as why:
        print(f"tlut: {why}", file=sys.stderr)
        return 1
    except OSError as error:
        print(f"tlut: {error.filename}: {error.strerror}", file=sys.stderr)
        return 1
    print(f"{given.folder} has {', '.join(names)}")
    return 0


if __name__ == "__main__":
    sys.exit(main())
