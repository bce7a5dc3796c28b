"""Imports go down only: what commands share knows no command."""

import ast
import glob
import os
import unittest

from tlutflow.tests.helpers import TOP

ABOVE = ("tlutflow.commands", "tlutflow.main", "tlutflow.api")
# What stands above the rest: the command line, the interface for other programs, and the package, whose names are those of the interface.
FREE = ("main.py", "api.py", "__main__.py")


def imported(path: str) -> set[str]:
    """The modules that a file imports, at any place."""
    with open(path, encoding="utf-8") as file:
        nodes = list(ast.walk(ast.parse(file.read())))
    found = {name.name for node in nodes if isinstance(node, ast.Import) for name in node.names}
    for node in nodes:
        if isinstance(node, ast.ImportFrom) and node.module:
            found |= {node.module, *(f"{node.module}.{name.name}" for name in node.names)}
    return found


class Imports(unittest.TestCase):
    def test_no_library_imports_a_command(self):
        paths = [it for it in glob.glob(f"{TOP}/tlutflow/**/*.py", recursive=True) if "/tests/" not in it and "/commands/" not in it]
        paths = [it for it in paths if os.path.relpath(it, f"{TOP}/tlutflow") not in FREE]
        self.assertGreater(len(paths), 80)
        for path in paths:
            self.assertEqual([it for it in imported(path) if it in ABOVE or it.startswith("tlutflow.commands.")], [], path)

    def test_arguments_stay_in_commands(self):
        """Only commands, the command line and the interface for other programs know the arguments of a call."""
        known = (*FREE, "values.py")
        for path in glob.glob(f"{TOP}/tlutflow/**/*.py", recursive=True):
            if "/tests/" not in path and "/commands/" not in path and os.path.relpath(path, f"{TOP}/tlutflow") not in known:
                self.assertNotIn("argparse", imported(path), path)


if __name__ == "__main__":
    unittest.main()
