#!/usr/bin/env python3
"""Compares what README.md, CONTRIBUTING.md and docs/ state of the repository with the repository.

    python3 tools/doc_facts.py               checks the pages
    python3 tools/doc_facts.py --update      first writes the counts that can be computed into docs/testing.md, and measured figures into all pages
    python3 tools/doc_facts.py --self-test   plants wrong facts in copies of the pages, each of which must be found

It checks that
- each relative link leads to a file, and to a heading if it names one;
- each name in backticks that looks like a path is a path of the tree, and each that looks like an item of the code is in the code;
- each `NAME` of `FILE` is a name in that file;
- each clause that docs/theorems.md, docs/calls.md or docs/refused_calls.md gives for a call is a clause of the crates that its section names;
- each public call of the libraries has an entry in one of these, by its type and name;
- each function with more than six arguments is named in docs/DECISIONS.md;
- the commands are the same in the code, in README, in docs/formats.md and in tools/help.txt;
- the counts of crates, lines, commands, wrong bodies, rows and tests are those of the tree;
- the figures of sentences and tables, on one page or several, are those that the measuring tools wrote (tools/figures.py).

The last line is `N facts, M wrong`, and the exit status is 1 if M isn't 0.
"""

from __future__ import annotations

import functools
import os
import re
import sys
from typing import Iterable, Iterator, Optional

import figures
import shared
from facts.plants import self_test
from facts.tree import Tree, is_there, place_of, read, words_of
from shared import TOP

PAGES = ["README.md", "CONTRIBUTING.md", *sorted(f"docs/{name}" for name in os.listdir(f"{TOP}/docs") if name.endswith(".md"))]
NUMBERS = "one two three four five six seven eight nine ten eleven twelve thirteen fourteen fifteen sixteen".split()
# Pages whose names in backticks are those of the code. On the others they are mostly words of formats and of other tools.
CODE_PAGES = {"docs/theorems.md", "docs/headline.md", "docs/calls.md", "docs/refused_calls.md", "docs/definitions.md", "docs/architecture.md", "docs/DECISIONS.md", "docs/testing.md", "docs/rows.md"}
# Pages that say what each call promises.
PROMISES = ("docs/theorems.md", "docs/calls.md", "docs/refused_calls.md")
COMMANDS = {"run", "spec", "map", "bits", "gen", "repack", "prove", "audit", "graph", "pace"}


def number_of(word: str) -> Optional[int]:
    """The number that a word writes, or None."""
    if word.lower() in NUMBERS:
        return NUMBERS.index(word.lower()) + 1
    return int(word.replace(",", "")) if re.fullmatch(r"\d[\d,]*", word) else None


def written_like(word: str, number: int) -> str:
    """The number, as the word wrote its own."""
    if not word[0].isdigit() and number <= len(NUMBERS):
        return NUMBERS[number - 1]
    return f"{number:,}"


@functools.lru_cache(maxsize=None)
def anchors_of(text: str) -> set[str]:
    """The names by which links reach the headings of a page."""
    names = set()
    for line in re.sub(r"^```.*?^```$", "", text, flags=re.MULTILINE | re.DOTALL).splitlines():
        head = re.match(r"#+ (.*)", line)
        if head:
            name = re.sub(r"[^\w\- ]", "", re.sub(r"\[([^\]]*)\]\([^)]*\)", r"\1", head[1]).lower()).replace(" ", "-")
            names.add(name)
    return names


def entries_of(text: str) -> Iterator[str]:
    """The calls that a page names in backticks. In a cell of a table a name that follows `Type::name` may be of the same type."""
    for cell in re.split(r"[|\n]", text):
        owner = None
        for name in re.findall(r"`(\w+(?:::\w+)?)`", cell):
            owner = name.split("::")[0] if "::" in name else owner
            yield name
            if owner and "::" not in name:
                yield f"{owner}::{name}"


class Checks:
    """The facts that were looked at, and those that are wrong."""

    def __init__(self, texts: dict[str, str], tree: Tree) -> None:
        self.texts, self.tree, self.facts = texts, tree, 0
        self.wrong: list[str] = []

    def ask(self, is_right: bool, page: str, line: int, what: str) -> None:
        self.facts += 1
        if not is_right:
            self.wrong.append(f"{page}:{line}: {what}")

    def prose(self, page: str) -> Iterator[tuple[int, str]]:
        """The lines of a page outside its blocks, by their numbers."""
        is_block = False
        for number, line in enumerate(self.texts[page].splitlines(), 1):
            if line.startswith("```"):
                is_block = not is_block
            elif not is_block:
                yield number, line

    def links(self, page: str) -> None:
        for number, line in self.prose(page):
            for target in re.findall(r"\]\(([^)\s]+)\)", line):
                if re.match(r"[a-z]+:", target):
                    continue
                path, _, anchor = target.partition("#")
                at = os.path.normpath(os.path.join(os.path.dirname(page), path)) if path else page
                self.ask(os.path.exists(f"{TOP}/{at}"), page, number, f"no file {at}, to which {target} leads")
                if anchor and at.endswith(".md") and os.path.exists(f"{TOP}/{at}"):
                    text = self.texts.get(at) or read(at)
                    self.ask(anchor in anchors_of(text), page, number, f"no heading #{anchor} in {at}")

    def names(self, page: str) -> None:
        for number, line in self.prose(page):
            crates = [name for name in re.findall(r"`(\w+)", line) if name in self.tree.crates]
            for name in re.findall(r"`([^`]+)`", line):
                if self.is_path(name):
                    self.ask(self.has_path(name, crates), page, number, f"no path `{name}`")
                elif page in CODE_PAGES and self.is_item(name):
                    is_member = "::" in name and not name.split("::")[-1][0].isupper()
                    is_there = name in self.tree.members if is_member else set(re.findall(r"\w+", name)) <= self.tree.words
                    self.ask(is_there, page, number, f"no `{name}` in the code")

    def places(self, page: str) -> None:
        """Each name that the page says to be of a file."""
        for number, line in self.prose(page):
            for names, path in re.findall(r"((?:`\w+`(?:, | and ))*`\w+`) of `([\w/]+\.(?:antt|rt))`", line):
                for name in re.findall(r"`(\w+)`", names):
                    self.ask(name in words_of(path), page, number, f"no `{name}` in {path}")

    def is_path(self, name: str) -> bool:
        """Whether a name in backticks is meant as a path of the repository."""
        if name.startswith("..") or "/out/" in name or re.search(r"[ =<>|(){}$'\"]", name) or re.search(r"\b(NAME|SUBJECT)\b", name) or "//" in name:
            return False
        first = name.split("/")[0]
        tops = {"crates", "docs", "tools", "examples", "tlutflow", ".ci", "specs", "src", "proofs"}
        return "/" in name and (first in tops or first in self.tree.crates) or name.endswith((".antt", ".rt"))

    def has_path(self, name: str, crates: list[str]) -> bool:
        """Whether the tree has the path: from the top, from crates/, in a crate that the line names, or in any crate."""
        places = ["", "crates/", *(f"crates/{crate}/" for crate in crates), "crates/*/", "crates/*/**/"]
        return any(is_there(f"{TOP}/{place}{name.rstrip('/')}") for place in places)

    @staticmethod
    def is_item(name: str) -> bool:
        """Whether a name in backticks is meant as an item of the code."""
        if not re.fullmatch(r"\w+(::\w+)*", name):
            return False
        return "::" in name or "_" in name or re.search(r"[a-z][A-Z]", name) is not None

    def clauses(self, page: str) -> None:
        """Each clause that a row of a page gives: of a call that the row names, or else of the section's crates."""
        section = []
        for number, line in self.prose(page):
            if line.startswith("#"):
                section = [name for name in re.findall(r"`(\w+)", line) if name in self.tree.crates]
            if not line.startswith("| ") or line.startswith("|---"):
                continue
            head, _, rest = line.partition(" | ")
            crates = re.findall(r"crates/(\w+)/", line) or [name for name in re.findall(r"`(\w+)`", head) if name in self.tree.crates] or section
            known = self.clauses_of(head, dict.fromkeys(crates))
            for name in re.findall(r"`(\w+)`", "".join(re.findall(r"((?:`\w+`, )*`\w+`): ", rest))):
                if known and name not in COMMANDS and name not in self.tree.crates and not name[0].isupper():
                    self.ask(name in known or name in self.tree.fields, page, number, f"no clause `{name}` of {head.strip('| ')}")

    def clauses_of(self, head: str, crates: Iterable[str]) -> set[str]:
        """The clauses of the calls that the first cell of a row names, or else all clauses and calls of these crates."""
        calls = [name.split("::")[-1] for name in re.findall(r"`([\w:]+)`", head)]
        contracts = [self.tree.contracts[name] for name in crates]
        own = set().union(*(it.get(call, set()) for it in contracts for call in calls))
        if own:
            return own | set(calls)
        return set().union(*(it.keys() for it in contracts), *(names for it in contracts for names in it.values()))

    def calls(self) -> None:
        named = {name for page in PROMISES for name in entries_of(self.texts[page])}
        for crate, name in self.tree.calls:
            self.ask(name in named, "docs/calls.md", 1, f"no entry for `{name}` of {crate}")

    def arguments(self) -> None:
        page = "docs/DECISIONS.md"
        lines = [(number, line) for number, line in self.prose(page) if "at most six arguments" in line]
        number, line = lines[0] if lines else (1, "")
        for crate, name in self.tree.wide:
            self.ask(f"`{name}`" in line and f"`{crate}`" in line, page, number, f"`{name}` of `{crate}` has more than six arguments")

    def commands(self) -> None:
        rows = re.findall(r"^\| `([a-z]+ [^`]+)` \|", self.texts["README.md"], re.MULTILINE)
        self.ask(rows == self.tree.commands, "README.md", 1, f"the commands are {self.tree.commands}")
        block = re.search(r"## Commands and arguments\n\n```\n(.*?)```", self.texts["docs/formats.md"], re.DOTALL)
        self.ask(block is not None and block[1].splitlines() == self.tree.commands, "docs/formats.md", 1, "the commands differ from the usage line")
        listed = [line.strip() for line in read("tools/help.txt").splitlines() if line.strip() in self.tree.commands]
        self.ask(listed == self.tree.commands, "tools/help.txt", 1, "the commands differ from the usage line")
        code = self.tree.code["tlut_cli"]
        for command in self.tree.commands:
            self.ask(command in code, "docs/formats.md", 1, f"`{command}` isn't in the code of tlut_cli")

    def counts(self) -> None:
        for page, pattern, values in counts(self.tree):
            found = re.search(pattern, self.texts[page])
            self.ask(found is not None, page, 1, f"no text of the form {pattern}")
            if found:
                line = self.texts[page].count("\n", 0, found.start()) + 1
                for word, value in zip(found.groups(), values):
                    self.ask(number_of(word) == value, page, line, f"{word} in `{found[0]}`, and it is {value:,}")
        for crate, row in crate_rows(self.texts["docs/testing.md"]).items():
            self.ask(row.cells == self.cells(crate), "docs/testing.md", row.line, f"{crate}: {row.cells}, and it is {self.cells(crate)}")
        self.ask(set(crate_rows(self.texts["docs/testing.md"])) == {*self.tree.crates, "all"}, "docs/testing.md", 1, "the table of crates has others")
        self.crate_lists()

    def cells(self, crate: str) -> list[str]:
        """What the row of a crate in testing.md must begin with; `all` is their sum."""
        sizes = self.tree.sizes.get(crate) or [self.tree.sum(place) for place in range(5)]
        return [f"{number:,}" for number in sizes[:3]] + [str(number) if number else "" for number in sizes[3:]]

    def crate_lists(self) -> None:
        """That architecture.md has a row for each crate, and testing.md one for each crate with wrong bodies in the gate."""
        rows = re.findall(r"^\| ((?:`\w+`(?:, )?)+) \|", self.texts["docs/architecture.md"], re.MULTILINE)
        listed = [name for row in rows for name in re.findall(r"`(\w+)`", row)]
        for name in self.tree.crates:
            self.ask(name in listed, "docs/architecture.md", 1, f"no row for the crate {name}")
        section = self.texts["docs/testing.md"].partition("## Wrong bodies")[2].partition("\n## ")[0]
        listed = re.findall(r"^\| `(\w+)` \|", section, re.MULTILINE)
        wanted = [name for name in self.tree.crates if self.tree.sizes[name][3]]
        self.ask(sorted(listed) == sorted(wanted), "docs/testing.md", 1, f"the gate has wrong bodies of {wanted}")

    def measured(self) -> None:
        """The figures of the measuring tools, wherever pages state them."""
        for page, line, is_right, what in figures.differences(figures.Figures(), self.texts):
            self.ask(is_right, page, line, what)

    def all(self) -> list[str]:
        for page in self.texts:
            self.links(page)
            self.names(page)
            self.places(page)
        for page in PROMISES:
            self.clauses(page)
        self.calls()
        self.arguments()
        self.commands()
        self.counts()
        self.measured()
        return self.wrong


def counts(tree: Tree) -> list[tuple[str, str, list[int]]]:
    """Where a page states a count: the page, a pattern, and what each of its groups must be."""
    lines = [tree.sum(place) for place in range(3)]
    players = tree.sum(0, {"test_player", "test_rows"})
    tests = tree.sum(0, {"test_player", "test_rows", "test_stages"})
    commands = len(tree.commands)
    families = sum(1 for name in tree.crates if name.startswith("cmd_") and name not in ("cmd_base", "cmd_stations"))
    refused = len(place_of(r"CALLS = \[\n(.*?)^\]", read("tools/refused_memory.py"), re.MULTILINE | re.DOTALL)[1].splitlines())
    page = "docs/testing.md"
    return [
        (page, r"\| crates \| (\d+) \|", [len(tree.crates)]),
        (page, r"lines of code and proof \| ([\d,]+): ([\d,]+) of source, ([\d,]+) of definitions, ([\d,]+) of proofs", [sum(lines), *lines]),
        (page, r"of the source: tests \| ([\d,]+), of which ([\d,]+) play the rows", [tests, players]),
        (page, r"lines of rows \| ([\d,]+)", [tree.row_lines]),
        (page, r"worked rows \| ([\d,]+), of which (\d+) are spoilt", [tree.rows, tree.spoilt]),
        (page, r"test functions \| (\d+)", [tree.tests]),
        (page, r"wrong bodies in the gate \| (\d+), in (\d+) crates", [tree.sum(3), tree.with_edits(3)]),
        (page, r"wrong bodies on demand \| (\d+), in (\d+) crates", [tree.sum(4), tree.with_edits(4)]),
        (page, r"refuses each allocation of (\w+) calls", [refused]),
        ("docs/definitions.md", r"the forms of the (\w+) commands", [commands]),
        ("docs/architecture.md", r"The commands are in (\w+) crates", [families]),
    ]


class Row:
    """A row of the table of crates: its line, its cells of counts, and all of it."""

    def __init__(self, line: int, text: str) -> None:
        cells = [cell.strip() for cell in text.strip("|").split("|")]
        self.line, self.name, self.cells, self.rest = line, cells[0].strip("`"), cells[1:6], cells[6:]


def crate_rows(text: str) -> dict[str, Row]:
    """The rows of the table of crates in testing.md, by their crates."""
    before, _, section = text.partition("## Lines and minutes")
    start = before.count("\n") + 1
    rows = (Row(start + at, line) for at, line in enumerate(section.splitlines()) if re.match(r"\| (`\w+`|all) \|", line))
    return {row.name: row for row in rows}


def update(tree: Tree) -> None:
    """Writes the measured figures into all pages, and the counts into docs/testing.md."""
    with open(f"{TOP}/{figures.time_plot.PICTURE}", "w", encoding="utf-8") as file:
        file.write(figures.picture(figures.Figures()))
    for name in PAGES:
        text = figures.filled(figures.Figures(), name, read(name))
        if text != read(name):
            with open(f"{TOP}/{name}", "w", encoding="utf-8") as file:
                file.write(text)
    page = "docs/testing.md"
    text = read(page)
    for where, pattern, values in counts(tree):
        if where == page:
            text = re.sub(pattern, lambda found: filled(found, values), text, count=1)
    checks = Checks({page: text}, tree)
    lines = text.splitlines()
    rows = crate_rows(text)
    for row in rows.values():
        name = row.name if row.name == "all" else f"`{row.name}`"
        lines[row.line - 1] = "| " + " | ".join([name, *checks.cells(row.name), *row.rest]) + " |"
    with open(f"{TOP}/{page}", "w", encoding="utf-8") as file:
        file.write("\n".join(lines) + "\n")


def filled(found: re.Match[str], values: list[int]) -> str:
    """A text with its groups replaced by these numbers."""
    text, shift = found[0], found.start()
    for place in range(len(values), 0, -1):
        begin, end = (it - shift for it in found.span(place))
        text = text[:begin] + written_like(found[place], values[place - 1]) + text[end:]
    return text


def main() -> int:
    parser = shared.words(__doc__)
    one = parser.add_mutually_exclusive_group()
    one.add_argument("--update", action="store_true", help="write the counts into docs/testing.md first")
    one.add_argument("--self-test", action="store_true", help="look for planted facts too")
    given = parser.parse_args()
    tree = Tree()
    if given.update:
        update(tree)
    texts = {page: read(page) for page in PAGES}
    checks = Checks(texts, tree)
    for line in checks.all():
        print(line)
    print(f"{checks.facts} facts, {len(checks.wrong)} wrong")
    if given.self_test and not checks.wrong:
        return 1 if self_test(texts, lambda planted: Checks(planted, tree).all()) else 0
    return 1 if checks.wrong else 0


if __name__ == "__main__":
    sys.exit(main())
