#!/usr/bin/env python3
"""Renames a public type of a crate in all crates: its sources, definitions, proofs and wrong bodies.

    python3 tools/dev/rename_type.py CRATE OLD NEW [CHECKOUT]

In the crate itself each word OLD becomes NEW, and so do folders of proofs of this name. In another crate a file is changed if it imports OLD
from CRATE, or from a file of its own crate that passes it on. A file that has the name from two crates is only listed: change it by hand.
"""

import argparse
import glob
import os
import re
import subprocess
import sys
from typing import Iterator

PARTS = ("src", "specs", "proofs", "must-fail", "wrong-bodies")


def files_of(crate: str) -> list[str]:
    """The texts of a crate's folder."""
    found = (path for part in PARTS for path in glob.glob(f"{crate}/{part}/**/*", recursive=True))
    return sorted(path for path in found if path.endswith((".rt", ".antt", ".edit")))


def read(path: str) -> str:
    """A file's text."""
    with open(path, encoding="utf-8") as file:
        return file.read()


def imports_of(text: str) -> Iterator[tuple[str, str]]:
    """The crate, in the form of its name in a path, and the whole text of each import."""
    for found in re.finditer(r"^\s*(?:pub |ghost |pub\(crate\) )*use\s+(?:Rattle\.)?(\w+)((?:[^;{]|\{[^}]*\})*?)(?:;|$)", text, re.M):
        yield found[1], found[2]


def sources_of(text: str, name: str) -> set[str]:
    """The crates from which a text imports a name."""
    return {crate for crate, rest in imports_of(text) if re.search(rf"\b{name}\b(?! as)", rest)}


def renamed(text: str, old: str, new: str) -> str:
    """The text with the new name. A module of definitions or lemmas that has the name by chance keeps it."""

    def one(found: re.Match[str]) -> str:
        line = text[text.rfind("\n", 0, found.start()) + 1 : found.start()]
        path = "".join(re.findall(r"[\w.]*$", line))
        is_path = re.search(r"\b(specs|proofs)\.", path) and "declared." not in path and re.match(r"\.[{*]|[; \n]", text[found.end() :])
        is_module = is_path or re.match(r"\s*(pub )?mod $|pub use $", line) and text[found.end()] in "\n."
        return old if is_module else new

    return re.sub(rf"(?<![\w\-]){old}(?![\w\-])", one, text)


def change(path: str, old: str, new: str) -> bool:
    """Renames within a file; tells if something changed."""
    text = read(path)
    made = renamed(text, old, new)
    if made != text:
        with open(path, "w", encoding="utf-8") as file:
            file.write(made)
    return made != text


def move_folders(crate: str, old: str, new: str) -> None:
    """Renames folders of proofs."""
    for folder in sorted(glob.glob(f"{crate}/proofs/**/{old}", recursive=True), key=len, reverse=True):
        if os.path.isdir(folder):
            subprocess.run(["git", "mv", folder, os.path.join(os.path.dirname(folder), new)], check=True)


def users_of(top: str, crate: str, old: str) -> tuple[list[str], list[str]]:
    """The files of other crates that have the name from this one, and those that also have it from elsewhere."""
    mine: list[str] = []
    both: list[str] = []
    for other in sorted(glob.glob(f"{top}/crates/*")):
        name = os.path.basename(other)
        if name == crate:
            continue
        froms = {path: sources_of(read(path), old) for path in files_of(other)}
        passed_on = {path for path, found in froms.items() if crate in found}
        for path, found in froms.items():
            is_ours = path in passed_on or (name in found or "crate" in found) and passed_on and not found - {name, "crate"}
            if is_ours:
                (both if found - {crate, name, "crate"} else mine).append(path)
    return mine, both


def main() -> int:
    """Renames, and says what was changed."""
    parser = argparse.ArgumentParser(description=__doc__.splitlines()[0])
    parser.add_argument("crate")
    parser.add_argument("old")
    parser.add_argument("new")
    parser.add_argument("checkout", nargs="?", default=".")
    given = parser.parse_args()
    own = f"{given.checkout}/crates/{given.crate}"
    mine, both = users_of(given.checkout, given.crate, given.old)
    changed = [path for path in [*files_of(own), *mine] if change(path, given.old, given.new)]
    move_folders(own, given.old, given.new)
    print(f"{given.crate}: {given.old} is {given.new} now in {len(changed)} files")
    for path in both:
        print("by hand:", path)
    return 0


if __name__ == "__main__":
    sys.exit(main())
