"""Where the shared object of include/tlut_host.h is found."""

from __future__ import annotations

import ctypes
import os
from typing import Optional

from tlutflow.faults import Fault

TOP = os.path.dirname(os.path.dirname(os.path.abspath(__file__)))
VARIABLE = "TLUT_HOST_LIBRARY"
# The number by which `dlinfo` is asked for the path of what was loaded.
DLINFO_LINKMAP = 2
# What the system's loader finds: the name that programs are linked to.
SONAME = "libtlut_host.so.1"
# Where it is built in the repository, and where `tlut install` puts it, beside the companion's folder.
PLACES = (f"{TOP}/include/build/libtlut_host.so", f"{os.path.dirname(TOP)}/{SONAME}")

# The one that is used if none is named: that of the variable, or else the first one of the places that is there.
LIBRARY: str = os.environ.get(VARIABLE, "") or next((place for place in PLACES if os.path.exists(place)), PLACES[0])


class LinkMap(ctypes.Structure):
    """The first fields of the C library's `struct link_map`."""

    _fields_ = [("address", ctypes.c_void_p), ("name", ctypes.c_char_p)]


def by_the_loader() -> Optional[str]:
    """The path of the one that the system's loader finds, if it finds one."""
    try:
        found, entry = ctypes.CDLL(SONAME), ctypes.POINTER(LinkMap)()
        failed = ctypes.CDLL(None).dlinfo(ctypes.c_void_p(found._handle), DLINFO_LINKMAP, ctypes.byref(entry))
    except (AttributeError, OSError):
        return None
    return None if failed else os.fsdecode(entry.contents.name or b"") or None


def library(given: Optional[str]) -> str:
    """The path of the one that is used: the one that was given, that of the variable, one in a usual place, or the loader's. A fault if none is there."""
    if given or os.environ.get(VARIABLE):
        return given or os.environ[VARIABLE]
    found = LIBRARY if os.path.exists(LIBRARY) else by_the_loader()
    if not found:
        raise Fault(f"the library for host programs isn't installed: make -C include builds it, --library or the variable {VARIABLE} names it")
    return found
