"""Removes what `tlut install PREFIX` wrote, as PREFIX/lib/tlut/manifest lists it. `tlut uninstall PREFIX` calls it.

    python3 tools/uninstall.py PREFIX

A file that was changed since it was installed stays, and is named. If DESTDIR is set, PREFIX is below that folder.
"""

from __future__ import annotations

import os
import sys

import shared
from packing import manifest


def main() -> int:
    parser = shared.words(__doc__)
    parser.add_argument("prefix", metavar="PREFIX", type=shared.path_of, help="where it was installed")
    root = os.environ.get("DESTDIR", "").rstrip("/") + parser.parse_args().prefix
    sys.dont_write_bytecode = True
    try:
        count, changed = manifest.uninstall(root)
    except manifest.Refused as why:
        print(f"tlut: {why}", file=sys.stderr)
        return 1
    except OSError as error:
        print(f"tlut: {error.filename}: {error.strerror}", file=sys.stderr)
        return 1
    print(f"removed {count} files and links from {root}")
    for path in changed:
        print(f"tlut: {root}/{path} was changed since it was installed, and stays", file=sys.stderr)
    return 1 if changed else 0


if __name__ == "__main__":
    sys.exit(main())
