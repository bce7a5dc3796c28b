#!/usr/bin/env python3
"""Counts the names that a file of definitions or proofs passes on and nothing imports from it; with --apply, takes them out.

    python3 tools/dev/unused_exports.py CHECKOUT [--apply]

A name stays if the file itself says it. A file is left alone if another one imports it without a list of names. If a crate's root passes on the
whole file, then names that are imported from the root count too.
"""

import argparse
import glob
import os
import re
import sys

from pass_on_imports import listed, module_of, read, write

IMPORT = re.compile(r"^\s*((?:pub |ghost )*use )(Rattle\.[\w.+\-]+?)\.\{(.*)\};?$")
STAR = re.compile(r"^\s*pub use (\S+)\.\*$")
WHOLE = re.compile(r"^\s*(?:pub |ghost )*use (Rattle\.[\w.+\-]+)(?: as \w+)?;?$")


def imported_as(path: str) -> str:
    """A file's name in an import. A root's is that of its folder."""
    module = module_of(path)
    return module[: -len(".Lib")] if module.endswith(".Lib") else module


def exported(line: str) -> list[str]:
    """The names that a line passes on, as it says them (`one as other`)."""
    found = IMPORT.match(line)
    return listed(found[3]) if found and found[1].startswith("pub use") else []


def count(lines: list[str]) -> int:
    """How many names a file passes on."""
    return sum(len(exported(line)) for line in lines)


class Uses:
    """What all files import."""

    def __init__(self, files: dict[str, list[str]]) -> None:
        self.names: dict[str, set[str]] = {}  # from each module
        self.whole: set[str] = set()  # modules imported without a list of names
        self.starred: set[str] = set()  # modules that a root passes on as a whole
        for path, lines in files.items():
            for line in lines:
                self.learn(path, line)

    def learn(self, path: str, line: str) -> None:
        """What a line imports."""
        some, whole, star = IMPORT.match(line), WHOLE.match(line), STAR.match(line)
        if some:
            self.names.setdefault(some[2], set()).update(name.split(" as ")[0] for name in listed(some[3]))
        elif whole:
            self.whole.add(whole[1])
        elif star:
            self.starred.add(f"{imported_as(path)}.{star[1]}")

    def of(self, module: str) -> set[str]:
        """The names that are imported from a module, or from the root that passes it on."""
        root = ".".join(module.split(".")[:3])
        return self.names.get(module, set()) | (self.names.get(root, set()) if module in self.starred else set())


def is_needed(name: str, used: set[str], body: str) -> bool:
    """Whether a name is imported, or said in the file that passes it on."""
    return name in used or re.search(rf"(?<![\w\-'.]){re.escape(name)}(?![\w\-'])", body) is not None


def shortened(lines: list[str], used: set[str]) -> list[str]:
    """A file's lines without names that it needn't pass on."""
    body = "\n".join(line for line in lines if not IMPORT.match(line))
    new = []
    for line in lines:
        names = exported(line)
        kept = [name for name in names if is_needed(name.split(" as ")[-1], used, body)]
        if kept == names:
            new.append(line)
        elif kept:
            new.append(line[: line.index("{") + 1] + ", ".join(kept) + line[line.rindex("}") :])
    return new


def main() -> int:
    """Says how many lines and names go."""
    parser = argparse.ArgumentParser(description=__doc__.splitlines()[0])
    parser.add_argument("checkout")
    parser.add_argument("--apply", action="store_true", help="take them out")
    given = parser.parse_args()
    os.chdir(f"{given.checkout}/crates")
    paths = [path for kind in ("antt", "rt") for path in glob.glob(f"*/**/*.{kind}", recursive=True) if "/out/" not in path]
    files = {path: read(path) for path in paths}
    uses, lines_gone, names_gone = Uses(files), 0, 0
    for path, lines in files.items():
        module = imported_as(path)
        if not path.endswith(".antt") or module in uses.whole:
            continue
        new = shortened(lines, uses.of(module))
        lines_gone += len(lines) - len(new)
        names_gone += count(lines) - count(new)
        if given.apply and new != lines:
            write(path, new)
    print("lines", lines_gone, "names", names_gone)
    return 0


if __name__ == "__main__":
    sys.exit(main())
