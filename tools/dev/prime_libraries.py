#!/usr/bin/env python3
"""Takes over libraries that another checkout has built, so that a check here begins at once.

A library is taken if the text of its crate and of all crates below it is the same in both checkouts. The toolchain's own stamp decides.
"""

import argparse
import importlib.machinery
import importlib.util
import os
import shutil
import sys
from types import ModuleType

import toolchain


def loaded(path: str) -> ModuleType:
    """The module of `rt`, which knows crates, stamps and what is built."""
    loader = importlib.machinery.SourceFileLoader("rt_tool", path)
    spec = importlib.util.spec_from_loader("rt_tool", loader)
    assert spec is not None
    module = importlib.util.module_from_spec(spec)
    sys.modules["rt_tool"] = module
    loader.exec_module(module)
    return module


def main() -> int:
    """Copies each library that is the same in both."""
    parser = argparse.ArgumentParser(description=__doc__.splitlines()[0])
    parser.add_argument("source", help="the checkout that has built libraries")
    parser.add_argument("target", nargs="?", default=".", help="the checkout that takes them")
    toolchain.add_word(parser)
    given = parser.parse_args()
    commands = f"{toolchain.folder_of(parser, given.rt)}/bin"
    sys.path.insert(0, commands)
    rtlib = loaded(f"{commands}/rt").rtlib
    built = {crate.name: crate for crate in rtlib.crates_below(os.path.abspath(given.source))}
    for crate in rtlib.crates_below(os.path.abspath(given.target)):
        other = built.get(crate.name)
        if other is None or other.is_program or crate.stamp() != other.stamp() or crate.is_built():
            continue
        if not os.path.isfile(f"{other.folder}/out/rlib/{crate.name}.rlib/format"):
            continue
        shutil.rmtree(f"{crate.folder}/out/rlib", ignore_errors=True)
        os.makedirs(f"{crate.folder}/out", exist_ok=True)
        shutil.copytree(f"{other.folder}/out/rlib", f"{crate.folder}/out/rlib")
        with open(f"{crate.folder}/out/rlib/stamp", "w", encoding="utf-8") as file:
            file.write(crate.stamp())
        print("taken:", crate.name)
    return 0


if __name__ == "__main__":
    sys.exit(main())
