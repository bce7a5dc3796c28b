"""The run-time specialiser as a library: a pack that takes new values of parameters, by the proved library of include/tlut_host.h.

    from tlutflow.host import Host

    with Host("fir.ppc", library="include/build/libtlut_host.so") as host:
        host.set(c1=7)                                  # by buses, as in the companion's commands
        print(host.writes)                              # [(address, bit), ..]: the configuration bits to rewrite
        host.scrub()

    with PacedHost("fir.ppc", rate=8) as device:        # at a limited rate: 8 bits per clock tick
        print(device.ask(c1=7))                         # how many bits of the device differ
        while not device.tick():                        # until the circuit may be clocked again
            print(device.writes)

The library works with numbers; buses are found here from the names that it reports. What can't be done raises `Fault`. A host that
isn't closed is freed when Python collects it.
"""

from __future__ import annotations

import ctypes
from types import TracebackType
from typing import Optional

from tlutflow.buses import assigned, buses_of
from tlutflow.faults import Fault
from tlutflow.host_calls import LIBRARY, MOST_RATE, RANGE, Calls, Writes, check, settings_of
from tlutflow.text import ENCODING, read_bytes


class Host:
    """A pack with the values of its parameters and the configuration of its device."""

    def __init__(self, path: str, library: str = LIBRARY):
        """Opens a pack file at the initial values of its parameters."""
        self._calls = Calls(library)
        self._calls.open("tlut_open", "tlut_close", path, read_bytes(path))
        parameters, bits = ctypes.c_size_t(0), ctypes.c_size_t(0)
        self._calls.done("tlut_counts", ctypes.byref(parameters), ctypes.byref(bits))
        self.bits = bits.value
        self.parameters = {self._name(number): number for number in range(parameters.value)}
        self.buses = buses_of(self.parameters)
        self._writes = Writes(self.bits)

    def set(self, *words: str, **values: object) -> list[tuple[int, bool]]:
        """Gives new values to parameters, by buses or single names, and returns the writes: `set(c1=7)` or `set("c1[2]=1")`."""
        return self.set_parameters(assigned([*words, *(f"{name}={value}" for name, value in values.items())], self.buses, "pack's parameters"))

    def set_parameters(self, bits: dict[str, int]) -> list[tuple[int, bool]]:
        """Gives new values to single parameters by their names, and returns the writes."""
        self._calls.done("tlut_set", *settings_of(self.parameters, bits))
        return self.writes

    def upset(self, address: int) -> list[tuple[int, bool]]:
        """Flips the bit at an address, as a fault in the device does, and returns the write."""
        check(self._calls.status("tlut_upset", ctypes.c_uint32(address)) if 0 <= address < 2**32 else RANGE)
        return self.writes

    def scrub(self) -> list[tuple[int, bool]]:
        """Sets every upset bit right, and returns the writes."""
        self._calls.done("tlut_scrub")
        return self.writes

    @property
    def writes(self) -> list[tuple[int, bool]]:
        """The writes of the last event, in ascending order of the addresses; none before the first."""
        return self._writes.read(self._calls, "tlut_writes")

    @property
    def image(self) -> list[bool]:
        """The configuration of the device, upset bits as they are."""
        return self._read("tlut_image", self.bits)

    @property
    def values(self) -> dict[str, bool]:
        """The values of the parameters by their names."""
        return dict(zip(self.parameters, self._read("tlut_values", len(self.parameters))))

    def close(self) -> None:
        """Frees the host. A second call does nothing."""
        self._calls.status("tlut_close")

    def __enter__(self) -> Host:
        return self

    def __exit__(self, kind: Optional[type[BaseException]], error: Optional[BaseException], trace: Optional[TracebackType]) -> None:
        self.close()

    def _name(self, number: int) -> str:
        count = ctypes.c_size_t(0)
        room = (ctypes.c_uint8 * 1)()
        self._calls.done("tlut_name", ctypes.c_size_t(number), room, ctypes.c_size_t(0), ctypes.byref(count))
        name = (ctypes.c_uint8 * max(count.value, 1))()
        self._calls.done("tlut_name", ctypes.c_size_t(number), name, count, ctypes.byref(count))
        return bytes(name[: count.value]).decode(**ENCODING)

    def _read(self, name: str, length: int) -> list[bool]:
        bits = (ctypes.c_bool * max(length, 1))()
        count = ctypes.c_size_t(0)
        self._calls.done(name, bits, ctypes.c_size_t(length), ctypes.byref(count))
        return list(bits[: count.value])


class PacedHost:
    """A pack whose device takes a limited number of bits per clock tick."""

    def __init__(self, path: str, rate: int, library: str = LIBRARY):
        """Opens a pack file at the initial values of its parameters, with their configuration on the device."""
        if isinstance(rate, bool) or not isinstance(rate, int) or not 0 < rate <= MOST_RATE:
            raise Fault(f"rate {rate}: a tick writes 1 to {MOST_RATE} bits")
        with Host(path, library) as host:
            self.bits, self.parameters, self.buses = host.bits, host.parameters, host.buses
        self._calls = Calls(library)
        self._calls.open("tlut_paced_open", "tlut_paced_close", path, read_bytes(path), ctypes.c_uint32(rate))
        self._writes = Writes(self.bits)

    def ask(self, *words: str, **values: object) -> int:
        """Requests new values of parameters, in the form of `Host.set`, and returns how many bits of the device differ."""
        return self.ask_parameters(assigned([*words, *(f"{name}={value}" for name, value in values.items())], self.buses, "pack's parameters"))

    def ask_parameters(self, bits: dict[str, int]) -> int:
        """Requests new values of single parameters by their names, and returns how many bits of the device differ."""
        waiting = ctypes.c_size_t(0)
        self._calls.done("tlut_ask", *settings_of(self.parameters, bits), ctypes.byref(waiting))
        return waiting.value

    def tick(self) -> bool:
        """Lets the clock tick: whether the device had the configuration of the requested values. If it hadn't, bits are written."""
        is_right = ctypes.c_bool(False)
        self._calls.done("tlut_tick", ctypes.byref(is_right))
        return is_right.value

    @property
    def writes(self) -> list[tuple[int, bool]]:
        """The writes of the last tick, in ascending order of the addresses; none before the first."""
        return self._writes.read(self._calls, "tlut_sent")

    def close(self) -> None:
        """Frees the host. A second call does nothing."""
        self._calls.status("tlut_paced_close")

    def __enter__(self) -> PacedHost:
        return self

    def __exit__(self, kind: Optional[type[BaseException]], error: Optional[BaseException], trace: Optional[TracebackType]) -> None:
        self.close()
