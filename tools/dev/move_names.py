#!/usr/bin/env python3
"""Rewrites the imports of names that moved from one module of definitions or lemmas to another, in all crates.

Each line of TABLE is `FROM TO NAME ..`, the modules in full (`Rattle.cut_enum.specs.Table`); a NAME of `*` stands for all names of FROM.
An import of several names is split if only some of them moved. Imports that nothing uses any more are left to `rt tidy`.
"""

import argparse
import glob
import re
import sys

IMPORT = re.compile(r"^(\s*)((?:pub |ghost )?use )(Rattle[\w.+]*)\.\{(.*)\}(;?)\s*$")


def moves_of(path: str) -> dict[tuple[str, str], str]:
    """Where each name goes."""
    moves = {}
    with open(path, encoding="utf-8") as file:
        for line in file:
            words = line.split()
            for name in words[2:]:
                moves[words[0], name] = words[1]
    return moves


def rewritten(line: str, moves: dict[tuple[str, str], str]) -> list[str]:
    """The import, or those that take its place."""
    found = IMPORT.match(line)
    if found is None:
        return [line]
    indent, keyword, module, names, end = found.groups()
    groups: dict[str, list[str]] = {}
    for name in filter(None, (it.strip() for it in names.split(","))):
        target = moves.get((module, name.split(" as ")[0])) or moves.get((module, "*")) or module
        groups.setdefault(target, []).append(name)
    if list(groups) == [module]:
        return [line]
    return [f"{indent}{keyword}{target}.{{{', '.join(group)}}}{end}" for target, group in groups.items()]


def main() -> int:
    """Rewrites all sources, definitions and proofs."""
    parser = argparse.ArgumentParser(description=__doc__.splitlines()[0])
    parser.add_argument("table", help="which names moved, and where")
    parser.add_argument("checkout", nargs="?", default=".")
    given = parser.parse_args()
    moves, changed = moves_of(given.table), 0
    for path in glob.glob(f"{given.checkout}/crates/*/**/*", recursive=True):
        if not path.endswith((".rt", ".antt")) or "/out/" in path:
            continue
        with open(path, encoding="utf-8") as file:
            lines = file.read().split("\n")
        new = [it for line in lines for it in rewritten(line, moves)]
        if new != lines:
            changed += 1
            with open(path, "w", encoding="utf-8") as file:
                file.write("\n".join(new))
    print("files changed:", changed)
    return 0


if __name__ == "__main__":
    sys.exit(main())
