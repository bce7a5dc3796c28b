"""Installs the programs, the companion, the pages and, if it is built, the library below a prefix. `./tlut install PREFIX` calls it.

    python3 tools/install.py PREFIX VERSION

PREFIX/lib/tlut gets the programs and the companion; PREFIX/bin gets links to `tlut`, to it as `tlut-compact` and, as `tlut-flow`, to the
companion. PREFIX/share gets man pages, the completion of `tlut-flow` in bash, the docs and the examples; PREFIX/lib and PREFIX/include get
the library for host programs with its header and its pkg-config file. PREFIX/lib/tlut/manifest lists all of it. A later call replaces
what the manifest lists; nothing else is replaced or removed. If DESTDIR is set, all goes below that folder, for a packager.
"""

from __future__ import annotations

import os
import signal
import sys
import tempfile

import shared
from build_program import INTERRUPTED, SIGNALS, Interrupted, interrupt
from packing import manifest, tree


def install(root: str, prefix: str, line: str) -> None:
    """Installs below the root what refers to the prefix."""
    with tempfile.TemporaryDirectory(prefix="tlut-") as room:
        tree.programs(room, line)
        tree.docs(room)
        if tree.has_library():
            tree.library(room, prefix)
        manifest.install(room, root)


def main() -> int:
    parser = shared.words(__doc__)
    parser.add_argument("prefix", metavar="PREFIX", type=shared.path_of, help="where it is installed")
    parser.add_argument("version", metavar="VERSION", help="the line of `tlut --version`")
    given = parser.parse_args()
    root = os.environ.get("DESTDIR", "").rstrip("/") + given.prefix
    for number in SIGNALS:
        signal.signal(number, interrupt)
    try:
        install(root, given.prefix, given.version)
    except Interrupted:
        print("tlut: interrupted; install continues where this call stopped, and uninstall removes what it wrote", file=sys.stderr)
        return INTERRUPTED
    except manifest.Refused as why:
        print(f"tlut: {why}", file=sys.stderr)
        return 1
    except OSError as error:
        print(f"tlut: {error.filename}: {error.strerror}", file=sys.stderr)
        return 1
    print(f"{root}/bin has tlut, tlut-compact and tlut-flow; {root}/{manifest.PLACE} lists all files; tlut uninstall {given.prefix} removes them")
    if not tree.has_library():
        print("the library for host programs isn't built, so it isn't installed: make -C include, and install again")
    return 0


if __name__ == "__main__":
    sys.exit(main())
