"""The repository as tools/doc_facts.py knows it: crates and their sizes, the words of the code, clauses and calls."""

from __future__ import annotations

import functools
import glob
import os
import re
from typing import Iterator, Optional

from shared import TOP

# Crates whose functions no other crate of the product calls.
TESTS = {"test_player", "test_rows", "test_stages", "bench_mapping", "tlut", "tlut_compact", "tlut_examples", "tlut_main"}


def read(path: str) -> str:
    with open(f"{TOP}/{path}", encoding="utf-8") as file:
        return file.read()


def place_of(pattern: str, text: str, flags: int = 0) -> re.Match[str]:
    """Where a text has a pattern first; it must have it."""
    found = re.search(pattern, text, flags)
    assert found, pattern
    return found


def code_files(*kinds: str) -> Iterator[str]:
    """The paths of all files of these kinds in the crates."""
    for at, folders, names in os.walk(f"{TOP}/crates"):
        folders[:] = [name for name in folders if name != "out"]
        yield from (f"{at}/{name}" for name in names if name.endswith(kinds))


class Tree:
    """What the repository has: its crates and their sizes, the words of its code, its clauses and its calls."""

    def __init__(self) -> None:
        lines = [line for line in read("crates.txt").splitlines() if line.strip() and not line.startswith("#")]
        self.crates = [line.split(":")[0].split()[0] for line in lines]
        self.sizes = {name: self.sizes_of(name) for name in self.crates}
        self.code = {name: self.text_of(name) for name in self.crates}
        whole = "\n".join(self.code.values())
        self.words = {*self.crates, *re.findall(r"\w+", whole)}
        for path in glob.glob(f"{TOP}/tlutflow/**/*.py", recursive=True) + glob.glob(f"{TOP}/tools/*.py"):
            with open(path, encoding="utf-8") as file:
                self.words |= set(re.findall(r"\w+", file.read()))
        self.members = {member for text in self.code.values() for member in members_of(text)}
        self.members |= {f"{name}::{call}" for name, text in self.code.items() for call in re.findall(r"^pub fn (\w+)", text, re.MULTILINE)}
        rows = [open(path, encoding="utf-8").read() for path in code_files(".rows")]
        self.row_lines = sum(text.count("\n") for text in rows)
        self.rows = sum(len(re.findall(r"^(?:spoilt )?row ", text, re.MULTILINE)) for text in rows)
        self.spoilt = sum(len(re.findall(r"^spoilt row ", text, re.MULTILINE)) for text in rows)
        self.tests = len(re.findall(r"#\[test\]", whole))
        self.fields = set(re.findall(r"^ *(\w+) :", whole, re.MULTILINE))
        self.contracts = {name: contracts_of(text) for name, text in self.code.items()}
        self.commands = place_of(r"usage: (.*?)`", read("docs/formats.md"))[1].split(", ")
        self.wide = list(wide_functions(self))
        self.calls = list(self.public_calls())

    @staticmethod
    def sizes_of(name: str) -> tuple[int, ...]:
        """The lines of source, definitions and proofs, and the wrong bodies in the gate and on demand."""
        sizes = []
        for folder, kind in (("src", ".rt"), ("specs", ".antt"), ("proofs", ".antt")):
            paths = glob.glob(f"{TOP}/crates/{name}/{folder}/**/*{kind}", recursive=True)
            sizes.append(sum(open(path, encoding="utf-8").read().count("\n") for path in paths))
        edits = (len(glob.glob(f"{TOP}/crates/{name}/{tier}/*.edit")) for tier in ("must-fail", "wrong-bodies"))
        return (*sizes, *edits)

    @staticmethod
    def text_of(name: str) -> str:
        """All code, definitions and proofs of a crate."""
        paths = [it for kind in ("rt", "antt") for it in sorted(glob.glob(f"{TOP}/crates/{name}/**/*.{kind}", recursive=True))]
        return "\n".join(open(path, encoding="utf-8").read() for path in paths if "/out/" not in path)

    def sum(self, place: int, names: Optional[set[str]] = None) -> int:
        return sum(sizes[place] for name, sizes in self.sizes.items() if names is None or name in names)

    def with_edits(self, place: int) -> int:
        return sum(1 for sizes in self.sizes.values() if sizes[place])

    def public_calls(self) -> Iterator[tuple[str, str]]:
        """The public functions of each library, and those of its public types, as `crate` and `name` or `Type::name`."""
        for crate in self.crates:
            if crate in TESTS:
                continue
            head = read(f"crates/{crate}/src/lib.rt")
            public = set(re.findall(r"^pub fn (\w+)", head, re.MULTILINE))
            for found in re.finditer(r"^pub use [\w:]+::(\{[^}]*\}|\w+)", head, re.MULTILINE):
                public |= {word.split(" as ")[0] for word in re.findall(r"\w+(?: as \w+)?", found[1])}
            for path in glob.glob(f"{TOP}/crates/{crate}/src/**/*.rt", recursive=True):
                with open(path, encoding="utf-8") as file:
                    for name in calls_of(file.read(), public):
                        yield crate, name


@functools.lru_cache(maxsize=None)
def is_there(pattern: str) -> bool:
    """Whether some path is of this pattern."""
    return bool(glob.glob(pattern, recursive=True))


@functools.lru_cache(maxsize=None)
def words_of(path: str) -> set[str]:
    """The words of a file of the crates, without those of the names that it takes from other files."""
    words = set()
    for found in glob.glob(f"{TOP}/crates/{path}") or glob.glob(f"{TOP}/crates/*/{path}"):
        with open(found, encoding="utf-8") as file:
            words |= {word for line in file if not line.startswith("use ") for word in re.findall(r"\w+", line)}
    return words


def contracts_of(text: str) -> dict[str, set[str]]:
    """The names of the clauses of each function that a crate declares."""
    found: dict[str, set[str]] = {}
    for head in re.finditer(r"^ *(?:pub )?(?:extern \"C\" )?fn (\w+)((?:.|\n)*?)^ *(?:\{|\}|pub fn |fn |///)", text, re.MULTILINE):
        found.setdefault(head[1], set()).update(re.findall(r"\bensures (\w+)", head[2]))
    return found


def declared(text: str) -> Iterator[tuple[Optional[str], str, bool]]:
    """The functions that a file of code declares: each with its type or trait, if it has one, and whether others see it."""
    owner, is_trait = None, False
    for line in text.splitlines():
        head = re.match(r"(?:pub )?(?:impl|trait)\b(?:<.*?>)?\s+(.*)", line)
        if head:
            found = re.search(r"\bfor (\w+)", head[1]) or re.match(r"(\w+)", head[1])
            owner, is_trait = found and found[1], line.startswith("pub trait")
        elif line.startswith("}"):
            owner = None
        free = re.match(r"(pub )?fn (\w+)", line)
        own = re.match(r"    (pub )?fn (\w+)", line)
        if free:
            yield None, free[2], free[1] is not None
        elif own and owner:
            yield owner, own[2], own[1] is not None or is_trait


def members_of(text: str) -> set[str]:
    """The functions of types and traits, as `Type::name`."""
    return {f"{owner}::{name}" for owner, name, _ in declared(text) if owner}


def calls_of(text: str, public: set[str]) -> Iterator[str]:
    """The public calls that a file of code declares, if these names are public."""
    for owner, name, is_seen in declared(text):
        if is_seen and (owner or name) in public:
            yield f"{owner}::{name}" if owner else name


def wide_functions(tree: Tree) -> Iterator[tuple[str, str]]:
    """The functions with more than six arguments, each with its crate."""
    for crate in tree.crates:
        for path in glob.glob(f"{TOP}/crates/{crate}/src/**/*.rt", recursive=True):
            with open(path, encoding="utf-8") as file:
                text = re.sub(r"//.*", "", file.read())
            for found in re.finditer(r"\bfn (\w+)\s*(?:<[^()]*?>)?\s*\(", text):
                if arguments_after(text, found.end()) > 6:
                    yield crate, found[1]


def arguments_after(text: str, at: int) -> int:
    """How many arguments a list has that begins there, after its parenthesis."""
    depth, count, is_empty = 0, 0, True
    for place in range(at, len(text)):
        letter = text[place]
        if depth == 0 and letter in ",)":
            count += not is_empty
            is_empty = True
            if letter == ")":
                return count
            continue
        if letter in "([{<":
            depth += 1
        elif letter in ")]}" or (letter == ">" and text[place - 1] != "-"):
            depth -= 1
        is_empty = is_empty and letter.isspace()
    return count
