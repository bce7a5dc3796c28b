"""The files of a build: folders, copies, the program's own file, and the parts of the report page."""

from __future__ import annotations

import os
import shutil
from typing import Iterable

from tlutflow import tools
from tlutflow.faults import Fault
from tlutflow.text import read_text

# What every report has: the circuit for its picture.
PAGE_MARK = "\nconst CIRCUIT = "


def program_file(program: str) -> str:
    """The file that changes if the program does: for the wrapper, the program that it runs."""
    built = [f"{os.path.dirname(os.path.realpath(program))}/{it}" for it in tools.BUILT]
    return next((it for it in built if os.path.exists(it)), program)


def make_folder(path: str) -> None:
    """Creates a folder unless it exists."""
    try:
        os.makedirs(path, exist_ok=True)
    except OSError as error:
        raise Fault(f"{path}: {error.strerror}") from None


def refuse_links(paths: Iterable[str]) -> None:
    """Refuses to write files through links: these lead to files of somebody else."""
    for path in paths:
        if os.path.islink(path):
            raise Fault(f"{path} is a link, and nothing is written through one; remove it, or choose another --out")


def refuse_foreign_page(path: str) -> None:
    """Refuses to replace a page that is no report of a build."""
    if os.path.lexists(path) and PAGE_MARK not in read_text(path):
        raise Fault(f"{path} is there and is no report of a build; remove it, or choose another --out")


def copy(source: str, target: str) -> None:
    """Copies a file, which may be the very one."""
    try:
        if os.path.abspath(source) != os.path.abspath(target):
            shutil.copyfile(source, target)
    except OSError as error:
        raise Fault(f"{error.filename or target}: {error.strerror}") from None


def page_text(path: str) -> str:
    """A part of the report page."""
    return read_text(f"{os.path.dirname(os.path.abspath(__file__))}/page/{path}")
