"""Plain names for files whose own names can't be in a script.

Yosys and ABC read commands from a script, in which not every name can be written: a `"` or a line feed ends one, `!` begins a command of the
shell, `*` is a pattern, and ABC takes no blank. Such a file or folder gets a link with a plain name, in a folder of the companion.
"""

from __future__ import annotations

import os
import re
import tempfile
from contextlib import contextmanager
from dataclasses import replace
from typing import Iterator, Optional

from tlutflow.faults import Fault
from tlutflow.text import read_bytes
from tlutflow.verilog.recipe import Sources, is_plain

# Where a folder with a plain name is made if TMPDIR's isn't one.
PLACES = ("/tmp", "/var/tmp", "/dev/shm")


@contextmanager
def work_folder() -> Iterator[str]:
    """A temporary folder with a plain path. If TMPDIR has another path, the folder is reached by a link."""
    with temporary_folder() as room:
        if is_plain(room):
            yield room
            return
        place = next((it for it in PLACES if os.access(it, os.W_OK | os.X_OK)), None)
        if place is None:
            raise Fault(f"{room}: Yosys and ABC can't take this path; let TMPDIR name a folder without blanks and quotes")
        with temporary_folder(place) as beside:
            os.symlink(os.path.abspath(room), f"{beside}/room")
            yield f"{beside}/room"


@contextmanager
def temporary_folder(place: Optional[str] = None) -> Iterator[str]:
    """A folder below another one, or below TMPDIR, that is removed at the end."""
    try:
        room = tempfile.TemporaryDirectory(prefix="flow-", dir=place)
    except OSError as error:
        raise Fault(f"{error.filename or place or tempfile.tempdir or 'TMPDIR'}: no temporary folder can be made: {error.strerror or error}") from error
    with room as path:
        yield path


class PlainNames:
    """Files and folders under plain names: those that have one keep it, and for others a link is made in a folder."""

    def __init__(self, folder: str):
        self.folder = folder
        self.kept: dict[str, str] = {}

    def path(self, given: str) -> str:
        """A path under a plain name. In a folder with a name that isn't plain, the file keeps its own name if it can, so that what is named
        relative to it is found."""
        if is_plain(given):
            return given
        folder, name = os.path.split(given)
        if name and is_plain(name):
            return f"{self.link(folder or '.', '')}/{name}"
        return self.link(given, os.path.splitext(name)[1])

    def link(self, given: str, end: str) -> str:
        """A link to a path."""
        known = next((link for link, path in self.kept.items() if path == given), None)
        if known:
            return known
        made = self.new(given, end)
        # A `..` after a link is for the system to follow.
        os.symlink(os.path.join(os.getcwd(), given), made)
        return made

    def new(self, given: str, end: str) -> str:
        """A new plain name for a path."""
        os.makedirs(self.folder, exist_ok=True)
        made = f"{self.folder}/{len(self.kept)}{end if is_plain(end) else ''}"
        self.kept[made] = given
        return made

    def copy(self, given: str) -> tuple[str, str]:
        """A copy of a file in Verilog whose name isn't plain, and the folder that it is in. The copy says that it is in that folder, so that
        Yosys looks for its data there."""
        folder = self.path(os.path.dirname(given) or ".")
        made = self.new(given, os.path.splitext(given)[1])
        shown = f"{folder}/{os.path.basename(made)}"
        self.kept[shown] = given
        with open(made, "wb") as file:
            file.write(f'`line 1 "{shown}" 0\n'.encode() + read_bytes(given))
        return made, folder

    def sources(self, given: Sources) -> Sources:
        """A design whose files and folders have plain names. `beside` has the folders of the files that are read as a copy."""
        beside: dict[str, str] = {}

        def named(path: str) -> str:
            if is_plain(os.path.basename(path)):
                return self.path(path)
            made, folder = self.copy(path)
            beside[made] = folder
            return made

        files, cells = [named(it) for it in given.files], [named(it) for it in given.cells]
        return replace(given, files=files, cells=cells, includes=[self.path(it) for it in given.includes], beside=beside)

    def shown(self, text: str) -> str:
        """What a program printed, with the names that were given."""
        if not self.kept:
            return text
        made = "|".join(re.escape(it) for it in sorted(self.kept, key=len, reverse=True))
        return re.sub(rf"({made})(?!\w|\.\w)", lambda found: self.kept[found[1]], text)

    @contextmanager
    def told(self) -> Iterator[None]:
        """Faults within name what was given."""
        try:
            yield
        except Fault as fault:
            raise type(fault)(self.shown(str(fault))) from fault
