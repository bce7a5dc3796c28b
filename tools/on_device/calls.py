"""What the measurements on devices share: the programs that they call, and a folder for each design."""

from __future__ import annotations

import os
import sys
from dataclasses import dataclass

TOP = os.path.dirname(os.path.dirname(os.path.dirname(os.path.abspath(__file__))))
sys.path.insert(0, TOP)

from tlutflow import tools  # noqa: E402
from tlutflow.steps import Steps  # noqa: E402

FLOW = f"{TOP}/flow"
HOME = "tlutflow/tests/designs"


@dataclass(frozen=True)
class Room:
    """Where a measurement works: its folder, and the folder's steps, which run again only if what they read has changed."""

    folder: str
    steps: Steps

    def path(self, name: str) -> str:
        """A file of the folder."""
        return f"{self.folder}/{name}"


def room(folder: str, name: str) -> Room:
    """The room of a design in a folder."""
    os.makedirs(f"{folder}/{name}", exist_ok=True)
    return Room(f"{folder}/{name}", Steps(f"{folder}/{name}", name))


def program() -> str:
    """The program: that of the variable TLUT, or ./tlut."""
    return os.environ.get("TLUT", f"{TOP}/tlut")


def version(name: str) -> str:
    """The version of a program that counts or plays, as it prints it."""
    return tools.versions(program()).get(name, "")


def must(words: list[str], given: str = "", folder: str = TOP) -> str:
    """What a command prints, which is to end well."""
    ran = tools.run(words, folder, None, given)
    if ran.returncode:
        sys.exit(f"{' '.join(words)[:200]}: {(ran.stderr or ran.stdout)[-500:]}")
    return ran.stdout
