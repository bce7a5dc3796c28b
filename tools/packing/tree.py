"""The files of an installation, in a folder of their own, as they are below a prefix."""

from __future__ import annotations

import os
import shutil
import subprocess
import sys
import tempfile

from packing import man_pages
from packing.manifest import HOME, Refused
from shared import TOP

# What is copied, and where it goes below the prefix.
PROGRAMS = [
    ("tlut", f"{HOME}/tlut"),
    ("flow", f"{HOME}/flow"),
    ("crates/tlut/out/tlut", f"{HOME}/program/tlut"),
    ("crates/tlut_compact/out/tlut_compact", f"{HOME}/program/tlut_compact"),
]
TEXTS = [
    ("tools/help.txt", f"{HOME}/tools/help.txt"),
    ("tools/shared.py", f"{HOME}/tools/shared.py"),
    ("tools/uninstall.py", f"{HOME}/tools/uninstall.py"),
    ("tools/packing/__init__.py", f"{HOME}/tools/packing/__init__.py"),
    ("tools/packing/manifest.py", f"{HOME}/tools/packing/manifest.py"),
]
LINKS = [("bin/tlut", f"../{HOME}/tlut"), ("bin/tlut-compact", f"../{HOME}/tlut"), ("bin/tlut-flow", f"../{HOME}/flow")]
DOC = "share/doc/tlut"
# Folders of texts, and what of them nobody needs who has no repository.
FOLDERS = [("tlutflow", f"{HOME}/tlutflow"), ("docs", f"{DOC}/docs"), ("examples", f"{DOC}/examples")]
PAGES = [("README.md", f"{DOC}/README.md"), ("CHANGELOG.md", f"{DOC}/CHANGELOG.md")]
LEFT_OUT = shutil.ignore_patterns("tests", "__pycache__")
BUILT = f"{TOP}/include/build/libtlut_host.so"


def version() -> str:
    """The number of the version."""
    with open(f"{TOP}/tlutflow/VERSION", encoding="utf-8") as file:
        return file.read().strip()


def copy(source: str, target: str, mode: int) -> None:
    """Copies a file to a folder that may not be there yet."""
    os.makedirs(os.path.dirname(target), exist_ok=True)
    shutil.copyfile(source, target)
    os.chmod(target, mode)


def write(target: str, text: str) -> None:
    """Writes a file to a folder that may not be there yet."""
    os.makedirs(os.path.dirname(target), exist_ok=True)
    with open(target, "w", encoding="utf-8") as file:
        file.write(text)
    os.chmod(target, 0o644)


def commit_of(line: str) -> str:
    """What `tlut --version` says of the commit: the part of its line after the number."""
    return line.split(", ", 1)[1] if ", " in line else line


def programs(tree: str, line: str) -> None:
    """The programs, the companion, their pages and the completion. The line is that of `tlut --version`."""
    for source, target in PROGRAMS:
        copy(f"{TOP}/{source}", f"{tree}/{target}", 0o755)
    for source, target in TEXTS:
        copy(f"{TOP}/{source}", f"{tree}/{target}", 0o644)
    for source, target in FOLDERS[:1]:
        shutil.copytree(f"{TOP}/{source}", f"{tree}/{target}", ignore=LEFT_OUT)
    write(f"{tree}/{HOME}/commit", f"{commit_of(line)}\n")
    for place, target in LINKS:
        os.makedirs(os.path.dirname(f"{tree}/{place}"), exist_ok=True)
        os.symlink(target, f"{tree}/{place}")
    for name, text in man_pages.pages(f"TLUT Flow {version()}").items():
        write(f"{tree}/share/man/man1/{name}", text)
    write(f"{tree}/share/bash-completion/completions/tlut-flow", man_pages.completion())


def docs(tree: str) -> None:
    """The pages and the examples."""
    for source, target in PAGES:
        copy(f"{TOP}/{source}", f"{tree}/{target}", 0o644)
    for source, target in FOLDERS[1:]:
        shutil.copytree(f"{TOP}/{source}", f"{tree}/{target}", ignore=LEFT_OUT)


def has_library() -> bool:
    """Whether the library for host programs is built."""
    return os.path.exists(BUILT)


def library(tree: str, prefix: str, libdir: str = "lib", cross: str = "") -> None:
    """The library with its header and its pkg-config file, as include/Makefile installs them, built first if it isn't. The folder for
    libraries is one below the prefix, and the cross compiler's name begins with the last word."""
    print(f"tlut: the library for host programs for {libdir}, which is proved first if its sources are new", file=sys.stderr)
    with tempfile.TemporaryDirectory(prefix="tlut-") as room:
        words = ["make", "-s", "-C", f"{TOP}/include", "install", f"DESTDIR={room}", f"prefix={prefix}", f"libdir={prefix}/{libdir}"]
        words += [f"includedir={prefix}/include", f"CROSS={cross}"]
        ran = subprocess.run(words, stdout=subprocess.PIPE, stderr=subprocess.STDOUT, text=True, check=False)
        if ran.returncode:
            raise Refused(f"the library for host programs could not be built: {(ran.stdout.strip().splitlines() or ['make says nothing'])[-1]}")
        shutil.copytree(f"{room}{prefix}", tree, symlinks=True, dirs_exist_ok=True)
