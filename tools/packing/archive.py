"""Archives whose bytes depend on nothing but their contents: names in order, one owner, one time, two modes."""

from __future__ import annotations

import gzip
import io
import os
import subprocess
import tarfile

GZIP_LEVEL = 9


def mode_of(path: str) -> int:
    """The mode of a file or folder in an archive: may it be run, or not?"""
    return 0o755 if os.path.isdir(path) or os.stat(path).st_mode & 0o100 else 0o644


def settle(tree: str, when: int) -> None:
    """Gives everything in a folder its mode, and one time."""
    for at, folders, names in os.walk(tree, topdown=False):
        for name in [*folders, *names, "."]:
            path = f"{at}/{name}"
            if not os.path.islink(path):
                os.chmod(path, mode_of(path))
            os.utime(path, (when, when), follow_symlinks=False)


def added(archive: tarfile.TarFile, path: str, name: str, when: int) -> None:
    """Adds a file, a link or a folder, without what is in it."""
    info = archive.gettarinfo(path, name)
    info.uid = info.gid = 0
    info.uname = info.gname = "root"
    info.mtime = when
    if info.isreg():
        # the same file twice is no link
        info.mode, info.type, info.linkname, info.size = mode_of(path), tarfile.REGTYPE, "", os.path.getsize(path)
        with open(path, "rb") as file:
            archive.addfile(info, file)
        return
    info.mode = 0o777 if info.issym() else 0o755
    archive.addfile(info)


def tar_gz(tree: str, top: str, target: str, when: int) -> None:
    """Packs a folder under a name as .tar.gz."""
    paths = [top]
    for at, folders, names in os.walk(tree):
        paths += [f"{top}/{os.path.relpath(f'{at}/{name}', tree)}" for name in [*folders, *names]]
    with open(target, "wb") as file, gzip.GzipFile("", "wb", GZIP_LEVEL, file, mtime=when) as packed:
        with tarfile.open(fileobj=packed, mode="w", format=tarfile.GNU_FORMAT, dereference=False) as archive:
            for path in sorted(paths):
                added(archive, tree + path[len(top) :], path, when)


def gzipped(path: str) -> None:
    """Replaces a file by its gzipped form, as Debian wants man pages and changes."""
    packed = io.BytesIO()
    with open(path, "rb") as file, gzip.GzipFile("", "wb", GZIP_LEVEL, packed, mtime=0) as target:
        target.write(file.read())
    with open(f"{path}.gz", "wb") as file:
        file.write(packed.getvalue())
    os.remove(path)


def deb(tree: str, target: str, when: int) -> None:
    """Packs a folder with its DEBIAN folder as a Debian package."""
    settle(tree, when)
    words = ["dpkg-deb", "--root-owner-group", "--threads-max=1", "--build", tree, target]
    environment = {**os.environ, "SOURCE_DATE_EPOCH": str(when)}
    subprocess.run(words, env=environment, stdout=subprocess.DEVNULL, check=True)
