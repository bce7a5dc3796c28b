"""Pack files: the bits of a configuration as Boolean functions of the parameters, in both versions of the format.

A literal is twice an index, and one more for the complement. Index 0 is the constant, then come the parameters, then the AND nodes.
"""

from __future__ import annotations

from dataclasses import dataclass
from typing import Optional

from tlutflow.faults import Fault
from tlutflow.text import ENCODING, read_bytes

MAGIC = b"TPPC"


@dataclass(frozen=True)
class Pack:
    """The parameters with their values at the start, the two literals of each AND node, and the literal of each bit."""

    parameters: dict[str, int]
    nodes: list[tuple[int, int]]
    bits: list[int]

    @property
    def first_node(self) -> int:
        """The index of the first AND node."""
        return 1 + len(self.parameters)

    def fan_ins(self, index: int) -> Optional[tuple[int, int]]:
        """The literals of the fan-ins of an AND node, or None for another index."""
        return self.nodes[index - self.first_node] if index >= self.first_node else None

    def configuration(self, values: Optional[dict[str, int]] = None) -> list[int]:
        """The bits under values of all parameters; without them under those of the start."""
        known = [0, *(self.parameters if values is None else {it: values[it] for it in self.parameters}).values()]
        for x, y in self.nodes:
            known.append((known[x >> 1] ^ x & 1) & (known[y >> 1] ^ y & 1))
        return [known[it >> 1] ^ it & 1 for it in self.bits]

    def supports(self) -> list[int]:
        """For each bit the parameters that its function reads, as a number with a digit for each parameter."""
        read = [0, *(1 << place for place in range(len(self.parameters)))]
        for x, y in self.nodes:
            read.append(read[x >> 1] | read[y >> 1])
        return [read[it >> 1] for it in self.bits]


class Reader:
    """The bytes of a pack, from an offset on."""

    def __init__(self, data: bytes, file: str):
        self.data, self.file, self.at = data, file, 0

    def refuse(self) -> Fault:
        """The fault at the current offset."""
        return Fault(f"{self.file}: not a pack from byte {self.at} on; ./tlut reports what is wrong with it")

    def take(self, length: int) -> bytes:
        """The next bytes."""
        found = self.data[self.at : self.at + length]
        if len(found) != length:
            raise self.refuse()
        self.at += length
        return found

    def fixed(self, length: int) -> int:
        """A number of so many bytes, the highest first."""
        return int.from_bytes(self.take(length), "big")

    def short(self) -> int:
        """A number of version 2: seven binary digits a byte, the lowest first."""
        value = place = 0
        while True:
            byte = self.fixed(1)
            value |= (byte & 127) << place
            place += 7
            if byte < 128:
                return value

    def number(self, version: int, length: int) -> int:
        """A number that has this many bytes in version 1."""
        return self.fixed(length) if version == 1 else self.short()

    def node(self, version: int, index: int) -> tuple[int, int]:
        """The literals of the node with an index."""
        if version == 1:
            x, y = self.fixed(4), self.fixed(4)
        else:
            y = 2 * index - self.short()
            x = y - self.short()
        if not 2 <= x < y < 2 * index:
            raise self.refuse()
        return x, y

    def parameter(self, version: int) -> tuple[str, int]:
        """A name and its value."""
        name = self.take(self.number(version, 2)).decode(**ENCODING)
        return name, self.fixed(1)


def read_pack(path: str) -> Pack:
    """The pack of a file."""
    return parse_pack(read_bytes(path), path)


def parse_pack(data: bytes, file: str) -> Pack:
    """The pack of the bytes of a file; `file` is its name in a fault."""
    reader = Reader(data, file)
    if reader.take(4) != MAGIC:
        raise Fault(f"{file}: not a pack: a pack begins with TPPC")
    version = reader.fixed(2)
    if version not in (1, 2):
        raise Fault(f"{file}: a pack of version {version}, and only versions 1 and 2 can be read")
    parameters = dict(reader.parameter(version) for _ in range(reader.number(version, 2)))
    first = 1 + len(parameters)
    nodes = [reader.node(version, first + place) for place in range(reader.number(version, 4))]
    bits = [reader.number(version, 4) for _ in range(reader.number(version, 4))]
    if reader.at != len(data) or any(it >> 1 >= first + len(nodes) for it in bits):
        raise reader.refuse()
    return Pack(parameters, nodes, bits)
