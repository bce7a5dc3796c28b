"""The manifest of an installation, PREFIX/lib/tlut/manifest: what `tlut install` wrote there, and nothing else may be removed.

A file has a line as `sha256sum` writes it, so `sha256sum -c lib/tlut/manifest` in PREFIX checks all files. Links and the folders that the
installation made have comment lines, which `sha256sum` leaves out.

The manifest is there before anything that it lists, and on the disk before anything else is written. So an installation that is cut off at
any moment can be repeated and removed.
"""

from __future__ import annotations

import glob
import hashlib
import os
import shutil
from typing import NamedTuple, Optional

HOME = "lib/tlut"
PLACE = f"{HOME}/manifest"
UNFINISHED = "# unfinished"
# What the names of files end with that aren't in their places yet.
NEW = ".new-tlut"


class Refused(Exception):
    """Why nothing is done."""


class Manifest(NamedTuple):
    """By path below the prefix: the checksum of each file, the target of each link, and the folders that were made. It is whole unless
    what it lists was still being written when the installation was cut off."""

    files: dict[str, str]
    links: dict[str, str]
    folders: set[str]
    is_whole: bool = True

    def paths(self) -> list[str]:
        """The files and links."""
        return sorted({*self.files, *self.links})

    def is_unchanged(self, root: str, path: str) -> bool:
        """Whether a path has what the manifest says of it, or is gone."""
        full = f"{root}/{path}"
        if not os.path.lexists(full) or not self.is_whole:
            return True
        if path in self.links:
            return os.path.islink(full) and os.readlink(full) == self.links[path]
        return os.path.isfile(full) and not os.path.islink(full) and sum_of(full) == self.files.get(path)

    def text(self) -> str:
        """The manifest as a file."""
        lines = ["# What `tlut install` wrote; `tlut uninstall PREFIX` removes it."]
        lines += [] if self.is_whole else [UNFINISHED]
        lines += [f"# folder {path}" for path in sorted(self.folders)]
        lines += [f"# link {path} {target}" for path, target in sorted(self.links.items())]
        return "\n".join([*lines, *(f"{total}  {path}" for path, total in sorted(self.files.items())), ""])


def sum_of(path: str) -> str:
    """The checksum of a file."""
    with open(path, "rb") as file:
        return hashlib.sha256(file.read()).hexdigest()


def read(root: str) -> Optional[Manifest]:
    """The manifest of the installation below a folder, if there is one."""
    if os.path.islink(f"{root}/{HOME}") or not os.path.isfile(f"{root}/{PLACE}"):
        return None
    with open(f"{root}/{PLACE}", encoding="utf-8") as file:
        lines = file.read().splitlines()
    found = filled(Manifest({}, {}, set(), UNFINISHED not in lines), lines)
    for path in [*found.paths(), *found.folders]:
        if path.startswith("/") or ".." in path.split("/"):
            raise Refused(f"{root}/{PLACE} lists {path}, which isn't below {root}; no installation wrote that")
    return found


def filled(found: Manifest, lines: list[str]) -> Manifest:
    """A manifest with what lines list."""
    for line in lines:
        words = line.split(" ", 3)
        if line.startswith("# folder "):
            found.folders.add(line.split(" ", 2)[2])
        elif line.startswith("# link "):
            found.links[words[2]] = words[3]
        elif not line.startswith("#"):
            found.files[line[66:]] = line[:64]
    return found


def of_tree(tree: str) -> Manifest:
    """The manifest of what is in a folder."""
    found = Manifest({}, {}, set())
    for at, folders, names in os.walk(tree):
        for name in sorted([*folders, *names]):
            full = f"{at}/{name}"
            path = os.path.relpath(full, tree)
            if os.path.islink(full):
                found.links[path] = os.readlink(full)
            elif os.path.isfile(full):
                found.files[path] = sum_of(full)
    return found


def refuse_foreign(root: str, old: Optional[Manifest], new: Manifest) -> None:
    """Refuses to write over what isn't of an installation, or was changed since."""
    home = f"{root}/{HOME}"
    if os.path.lexists(home) and not old and not is_begun(home):
        raise Refused(f"{home} is there and is no installation by `tlut install`; move it away, or choose another PREFIX")
    for path in new.paths():
        if os.path.lexists(f"{root}/{path}") and not (old and path in old.paths()):
            raise Refused(f"{root}/{path} is there and is not of tlut's installation; move it away, or choose another PREFIX")
    for path in old.paths() if old else ():
        if old and not old.is_unchanged(root, path):
            raise Refused(f"{root}/{path} was changed since it was installed; move it away")


def is_begun(home: str) -> bool:
    """Whether a folder is what an installation or its removal leaves that is cut off while there is no manifest."""
    return not os.path.islink(home) and os.path.isdir(home) and set(os.listdir(home)) <= {os.path.basename(f"{PLACE}.new")}


def folders_above(path: str) -> list[str]:
    """The folders above a path, the lowest one last and the prefix left out."""
    parent = os.path.dirname(path)
    return [*folders_above(parent), parent] if parent else []


def missing_folders(root: str, paths: list[str]) -> set[str]:
    """The folders above some paths that aren't there."""
    return {folder for folder in {it for path in paths for it in folders_above(path)} if not os.path.isdir(f"{root}/{folder}")}


def make_folders(root: str, folders: set[str]) -> None:
    """Makes folders that all may enter."""
    for folder in sorted(folders):
        if not os.path.isdir(f"{root}/{folder}"):
            os.mkdir(f"{root}/{folder}")
            os.chmod(f"{root}/{folder}", 0o755)


def make_root(root: str) -> None:
    """Makes the prefix, and what is missing above it."""
    if root and not os.path.isdir(root):
        make_root(os.path.dirname(root))
        os.mkdir(root)
        os.chmod(root, 0o755)


def keep(path: str) -> None:
    """Has a file or a folder written to the disk."""
    number = os.open(path, os.O_RDONLY)
    try:
        os.fsync(number)
    finally:
        os.close(number)


def write(root: str, manifest: Manifest) -> None:
    """Puts the manifest in place in one step, and on the disk."""
    new = f"{root}/{PLACE}.new"
    with open(new, "w", encoding="utf-8") as file:
        file.write(manifest.text())
    os.chmod(new, 0o644)
    keep(new)
    os.replace(new, f"{root}/{PLACE}")
    for folder in folders_above(PLACE):
        keep(f"{root}/{folder}")


def put(source: str, target: str) -> None:
    """Copies a file that all may read, or a link, and puts it in place in one step."""
    new = f"{target}{NEW}"
    if os.path.lexists(new):
        os.remove(new)
    shutil.copy(source, new, follow_symlinks=False)
    if not os.path.islink(new):
        os.chmod(new, 0o755 if os.stat(source).st_mode & 0o100 else 0o644)
        keep(new)
    os.replace(new, target)


def install(tree: str, root: str) -> None:
    """Puts what is in a folder below a root, in the place of an earlier installation. If it is cut off, the manifest has all that was written."""
    old, new = read(root), of_tree(tree)
    refuse_foreign(root, old, new)
    make_root(root)
    before = old or Manifest({}, {}, set())
    made = {*before.folders, HOME, *missing_folders(root, [*new.paths(), PLACE])}
    make_folders(root, set(folders_above(PLACE)))
    write(root, Manifest({**before.files, **new.files}, {**before.links, **new.links}, made, is_whole=False))
    make_folders(root, missing_folders(root, new.paths()))
    for path in new.paths():
        put(f"{tree}/{path}", f"{root}/{path}")
    remove(root, set(before.paths()) - set(new.paths()), made)
    for folder in {"", *(it for path in new.paths() for it in folders_above(path))}:
        keep(f"{root}/{folder}")
    write(root, new._replace(folders={path for path in made if os.path.isdir(f"{root}/{path}")}))


def remove(root: str, paths: set[str], folders: set[str]) -> int:
    """Removes these files and links, what wasn't in their places yet, what Python kept of them, and then those of the folders that are empty.
    Returns how many files and links that were."""
    there = [path for path in paths if os.path.lexists(f"{root}/{path}")]
    for path in paths:
        for full in (f"{root}/{path}{NEW}", f"{root}/{path}"):
            if os.path.lexists(full):
                os.remove(full)
        if path.endswith(".py"):
            cache = f"{root}/{os.path.dirname(path)}/__pycache__"
            for kept in glob.glob(f"{glob.escape(cache)}/{os.path.basename(path)[:-3]}.*.pyc"):
                os.remove(kept)
            drop_if_empty(cache)
    for path in sorted(folders, key=lambda it: -it.count("/")):
        drop_if_empty(f"{root}/{path}")
    return len(there)


def drop_if_empty(folder: str) -> None:
    """Removes a folder, if it is there and empty."""
    if os.path.isdir(folder) and not os.path.islink(folder) and not os.listdir(folder):
        os.rmdir(folder)


def uninstall(root: str) -> tuple[int, list[str]]:
    """Removes an installation. Returns how many files and links that were, and those that stay, since they were changed."""
    old = read(root)
    if not old and not is_begun(f"{root}/{HOME}"):
        raise Refused(f"{root}/{PLACE}: no such file, so there is no installation by `tlut install` to remove")
    old = old or Manifest({}, {}, {HOME})
    changed = [path for path in old.paths() if not old.is_unchanged(root, path)]
    last = set(folders_above(PLACE))
    count = remove(root, set(old.paths()) - set(changed), old.folders - last)
    for path in (f"{PLACE}.new", PLACE):
        if os.path.lexists(f"{root}/{path}"):
            os.remove(f"{root}/{path}")
    remove(root, set(), old.folders & last)
    return count, changed
