#!/usr/bin/env python3
"""Counts the sentences of each page, and those of more than 35 words.

    python3 tools/dev/sentences.py [--list] [PAGE ..]

Without pages it counts those of README.md, CONTRIBUTING.md, docs/ and tools/help.txt. At most 3 of 100 sentences of a page may be longer;
`--list` prints these. The end of a paragraph, of an item of a list, of a cell of a table and of an indented line ends a sentence. Blocks of code and headings
aren't counted. A link counts as its text, and a name in backticks as one word.

The last line is `N pages, M have too many long sentences`, and the exit status is 1 if M isn't 0.
"""

from __future__ import annotations

import argparse
import os
import re
import sys
from typing import Iterator

TOP = os.path.dirname(os.path.dirname(os.path.dirname(os.path.abspath(__file__))))
LONGEST = 35
SHARE = 0.03
# What ends in a full stop and no sentence does.
SHORT = re.compile(r"\b(e\.g|i\.e|vs|cf|etc|resp|et al)\.")


def pages() -> list[str]:
    """The pages of the repository, README first."""
    docs = sorted(name for name in os.listdir(f"{TOP}/docs") if name.endswith(".md"))
    return ["README.md", "CONTRIBUTING.md", *(f"docs/{name}" for name in docs), "tools/help.txt"]


def paragraphs(text: str) -> Iterator[tuple[int, str]]:
    """The paragraphs, items and cells of a page, each with the number of its first line."""
    lines: list[str] = []
    first, is_code = 0, False
    for number, line in enumerate([*text.splitlines(), ""], 1):
        is_fence = line.lstrip().startswith("```")
        is_code ^= is_fence
        is_row = line.startswith("|")
        begins = re.match(r"\s*(?:[-*>]|\d+\.) |  ", line)
        if lines and (is_code or is_fence or is_row or begins or not line.strip() or line.startswith("#")):
            yield first, " ".join(lines)
            lines = []
        if is_row:
            yield from ((number, cell) for cell in re.split(r"(?<!\\)\|", line.strip("| ")))
        elif line.strip() and not (is_code or is_fence or line.startswith("#")):
            first = first if lines else number
            lines.append(re.sub(r"^\s*(?:[-*>]|\d+\.) ", "", line).strip())


def sentences(paragraph: str) -> list[str]:
    """The sentences of a paragraph, each with at least two words."""
    plain = re.sub(r"!?\[([^\]]*)\]\([^)]*\)", r"\1", paragraph)
    plain = re.sub(r"`[^`]*`", lambda name: re.sub(r"\s", "_", name[0].replace(".", "_")), plain)
    plain = SHORT.sub(lambda word: word[0].replace(".", ""), plain)
    parts = re.split(r"(?<=[.!?])[)*\"]*\s+|(?<=[.!?][)*\"])\s+", plain.strip())
    return [it for it in parts if count(it) > 1]


def count(sentence: str) -> int:
    """The words of a sentence."""
    return sum(1 for word in sentence.split() if re.search(r"\w", word))


def look_at(page: str, is_listed: bool) -> bool:
    """Prints the counts of a page, and whether they are within the goal."""
    with open(os.path.join(TOP, page), encoding="utf-8") as file:
        found = [(number, it) for number, text in paragraphs(file.read()) for it in sentences(text)]
    long = [(number, it) for number, it in found if count(it) > LONGEST]
    is_fine = len(long) <= SHARE * len(found)
    print(f"{page}: {len(long)} of {len(found)} sentences{'' if is_fine else ', too many'}")
    if is_listed:
        for number, it in long:
            print(f"  {number}: {count(it)} words: {it}")
    return is_fine


def main() -> int:
    parser = argparse.ArgumentParser(description=__doc__, formatter_class=argparse.RawDescriptionHelpFormatter)
    parser.add_argument("pages", metavar="PAGE", nargs="*", help="a page (default: all)")
    parser.add_argument("--list", action="store_true", help="print the long sentences")
    given = parser.parse_args()
    results = [look_at(page, given.list) for page in given.pages or pages()]
    print(f"{len(results)} pages, {results.count(False)} have too many long sentences")
    return 1 if results.count(False) else 0


if __name__ == "__main__":
    sys.exit(main())
