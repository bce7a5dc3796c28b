"""The calls of include/tlut_host.h by `ctypes`: its structs, its statuses, and the shared object."""

from __future__ import annotations

import ctypes
import os
import weakref

from tlutflow import host_library
from tlutflow.faults import Fault

LIBRARY = host_library.LIBRARY

DONE, REFUSED, LIMIT, MEMORY, CLOSED, OPEN, RANGE, ORDER = range(8)

# The functions of the header; a shared object that lacks one is another library.
FUNCTIONS = (
    *("tlut_open", "tlut_close", "tlut_counts", "tlut_name", "tlut_number", "tlut_set", "tlut_upset", "tlut_scrub", "tlut_writes"),
    *("tlut_image", "tlut_value", "tlut_values"),
    *("tlut_paced_open", "tlut_paced_close", "tlut_ask", "tlut_tick", "tlut_sent"),
)

# The most bits that a tick can write.
MOST_RATE = 2**32 - 1

REASONS = {
    LIMIT: "more bytes than a pack can have",
    MEMORY: "out of memory",
    CLOSED: "the host is closed",
    OPEN: "the host is open",
    RANGE: "there is no such parameter or address",
    ORDER: "the parameters don't ascend",
}


class Handle(ctypes.Structure):
    """tlut_host and tlut_paced."""

    _fields_ = [("state", ctypes.c_void_p), ("is_open", ctypes.c_bool)]


class Refusal(ctypes.Structure):
    """tlut_refusal."""

    _fields_ = [("rule", ctypes.c_uint32), ("offset", ctypes.c_uint32)]


class Setting(ctypes.Structure):
    """tlut_setting."""

    _fields_ = [("parameter", ctypes.c_uint16), ("bit", ctypes.c_bool)]


class BitWrite(ctypes.Structure):
    """tlut_write."""

    _fields_ = [("address", ctypes.c_uint32), ("bit", ctypes.c_bool)]


def loaded(library: str) -> ctypes.CDLL:
    """The shared object of the header. A fault if it isn't there, can't be loaded, or is another library."""
    if not os.path.exists(library):
        raise Fault(f"{library} isn't built: make -C include")
    try:
        found = ctypes.CDLL(os.path.abspath(library))
        missing = [name for name in FUNCTIONS if not hasattr(found, name)]
    except OSError as error:
        raise Fault(f"{library} can't be loaded as the library for host programs: {str(error).splitlines()[0]}") from error
    if missing:
        raise Fault(f"{library} isn't the library for host programs: it has no {missing[0]}")
    return found


class Calls:
    """A handle, closed at first, and the calls on it. What it holds is freed with this object, if it wasn't closed before."""

    def __init__(self, library: str = LIBRARY):
        self._library = loaded(library)
        self._handle = Handle(None, False)

    def status(self, name: str, *arguments: object) -> int:
        """The status of a call whose first argument is the handle."""
        return self._answer(name, ctypes.byref(self._handle), *arguments)

    def done(self, name: str, *arguments: object) -> None:
        """A call that is to be done. A fault otherwise."""
        check(self.status(name, *arguments))

    def open(self, name: str, close: str, path: str, data: bytes, *rate: object) -> None:
        """Opens the handle on the bytes of a pack file, by the function of this name; `close` is the one that frees it."""
        refusal = Refusal(0, 0)
        pack = (ctypes.c_uint8 * max(len(data), 1)).from_buffer_copy(data or b"\0")
        status = self._answer(name, pack, ctypes.c_size_t(len(data)), *rate, ctypes.byref(self._handle), ctypes.byref(refusal))
        if status == REFUSED:
            raise Fault(f"{path}: not a pack: K{refusal.rule} at byte {refusal.offset}")
        check(status)
        # A second close returns a status, and does nothing.
        weakref.finalize(self, getattr(self._library, close), ctypes.byref(self._handle))

    def _answer(self, name: str, *arguments: object) -> int:
        function = getattr(self._library, name)
        function.restype = ctypes.c_uint32
        return int(function(*arguments))


class Writes:
    """An array for the writes of an event."""

    def __init__(self, bits: int):
        self._array = (BitWrite * max(bits, 1))()

    def read(self, calls: Calls, name: str) -> list[tuple[int, bool]]:
        """The writes that a call hands out."""
        count = ctypes.c_size_t(0)
        calls.done(name, self._array, ctypes.c_size_t(len(self._array)), ctypes.byref(count))
        return [(it.address, it.bit) for it in self._array[: count.value]]


def check(status: int) -> None:
    """A fault unless a call is done."""
    if status != DONE:
        raise Fault(REASONS.get(status, f"status {status}"))


def settings_of(parameters: dict[str, int], bits: dict[str, int]) -> tuple[object, ctypes.c_size_t]:
    """Settings in ascending order, and their number. A fault if a parameter doesn't exist, or a value isn't a bit."""
    for name, bit in bits.items():
        if name not in parameters:
            raise Fault(f"{name} isn't a parameter of the pack")
        if bit not in (0, 1):
            raise Fault(f"{name}={bit}: the value of a parameter is 0 or 1")
    numbers = sorted((parameters[name], bit) for name, bit in bits.items())
    return (Setting * max(len(numbers), 1))(*(Setting(number, bool(bit)) for number, bit in numbers)), ctypes.c_size_t(len(numbers))
