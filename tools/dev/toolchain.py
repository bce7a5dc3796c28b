"""Where the toolchain is, by its command `rt`."""

import argparse
import os
import shutil


def add_word(parser: argparse.ArgumentParser) -> None:
    """Adds the option that names the command."""
    parser.add_argument("--rt", default="rt", help="the toolchain's command (default: the one on the PATH)")


def folder_of(parser: argparse.ArgumentParser, name: str) -> str:
    """The toolchain's folder: the one that has the command's, behind all links. A usage error if there is no such command, or only a copy."""
    found = shutil.which(name)
    if found is None:
        parser.error(f"no command {name}; --rt names the toolchain's, if it isn't on the PATH")
    folder = os.path.dirname(os.path.dirname(os.path.realpath(found)))
    for path in ("bin/rt", "bin/rtlib.py", "rattle/std"):
        if not os.path.exists(f"{folder}/{path}"):
            parser.error(f"{found} isn't in a toolchain: {folder} has no {path}; --rt names the one that is")
    return folder
