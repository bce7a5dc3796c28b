"""Wrong facts that are planted in copies of the pages: tools/doc_facts.py must find each."""

from __future__ import annotations

from typing import Callable

PLANTS = [
    ("README.md", "(docs/case-studies.md)", "(docs/case-study.md)", "a link to no file"),
    ("README.md", "(docs/glossary.md#cover)", "(docs/glossary.md#covering)", "a link to no heading"),
    ("README.md", "| `bits PACK SCRIPT` |", "| `bits PACK` |", "a command of another form"),
    ("docs/architecture.md", "`specs/Bodies/`", "`specs/Body/`", "a path that isn't there"),
    ("docs/architecture.md", "`cmd_base/specs/Walk.antt`", "`cmd_base/specs/Walks.antt`", "a file that isn't there"),
    ("docs/architecture.md", "`details_words`", "`detail_words`", "a name that isn't in the code"),
    ("docs/architecture.md", "are in six crates", "are in five crates", "a stale count of crates"),
    ("docs/theorems.md", "`HasSourceTables`", "`HasSourceLuts`", "a definition that isn't in the code"),
    ("docs/theorems.md", "`HasAudit` of `cmd_cert/specs/Audit.antt`", "`HasAudit` of `cmd_cert/specs/Prove.antt`", "a definition of another file"),
    ("docs/calls.md", "`contains`: whatever blocks", "`holds_one`: whatever blocks", "a clause that isn't there"),
    ("docs/calls.md", "`CutTable::count`", "`CutTable::size`", "a call that isn't there"),
    ("docs/calls.md", "`DiskShelf::make`, `FilePort::make`", "`DiskShelf::make`", "a call without an entry, of a name that others have"),
    ("docs/definitions.md", "the ten commands", "the eight commands", "a stale count of commands"),
    ("docs/testing.md", "| test functions | ", "| test functions | 9", "a stale count of tests"),
    ("docs/testing.md", "worked rows | ", "worked rows | 1", "a stale count of rows"),
    ("docs/testing.md", "wrong bodies in the gate | ", "wrong bodies in the gate | 2", "a stale count of wrong bodies"),
    ("docs/testing.md", "| `cut_enum` | 1,", "| `cut_enum` | 2,", "a stale count of lines"),
    ("docs/DECISIONS.md", "`add_marked`", "`add_marks`", "a function of seven arguments that isn't named"),
]

# Wrong figures, each planted on several pages at once, so that these agree with each other: it must be found on each.
REPEATED = [
    ("64 LUTs instead of 63", [("README.md", "**64 LUTs", "**63 LUTs"), ("docs/performance.md", "3,364 | 64 | 5", "3,364 | 63 | 5"), ("docs/case-studies.md", "parameters | 64 | 5 |", "parameters | 63 | 5 |")]),
    ("the memory of a cut table", [(page, "about 302 MB", "about 320 MB") for page in ("docs/performance.md", "docs/verilog.md", "docs/DECISIONS.md")]),
]


def self_test(texts: dict[str, str], look: Callable[[dict[str, str]], list[str]]) -> int:
    """Plants each wrong fact in a copy of the pages, and looks for it there. Returns how many were not found."""
    missed = 0
    plants = [(what, [(page, old, new)]) for page, old, new, what in PLANTS] + REPEATED
    for what, places in plants:
        planted = dict(texts)
        for page, old, new in places:
            planted[page] = planted[page].replace(old, new, 1)
        wrong = look(planted)
        is_found = all(planted[page] != texts[page] and any(it.startswith(page) for it in wrong) for page, _, _ in places)
        print(f"{', '.join(page for page, _, _ in places)}: {what}: {'found' if is_found else 'NOT FOUND'}")
        missed += not is_found
    print(f"{len(plants) - missed} found, {missed} not found")
    return missed
