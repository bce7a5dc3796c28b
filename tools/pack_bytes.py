#!/usr/bin/env python3
"""Compares what the built program does with spoilt packs with a decoder in Python, written from docs/formats.md alone.

    python3 tools/pack_bytes.py [PROGRAM]

Outside the gate. Call `./tlut` once before, to build the program. The packs are three in both versions, and one in version 2: each prefix,
each change of one byte to each other value, each byte removed, and each byte doubled. `repack` has to answer the same fault line, or to
write the same pack in version 2. The last line is `N passed, M failed`, and the exit status is 1 if M isn't 0.
"""

from __future__ import annotations

import os
import subprocess
import sys
import tempfile
from concurrent.futures import ThreadPoolExecutor
from functools import partial
from typing import Optional

import shared

MOST = 2**25
# The names and values of the parameters, the pairs of the nodes, the literals of the bits.
Pack = tuple[list[tuple[bytes, int]], list[tuple[int, int]], list[int]]
# What `repack` gives: the status, both outputs and the file NEW.
Given = tuple[int, bytes, bytes, Optional[bytes]]

PACKS: list[Pack] = [
    ([(b"p", 0)], [], [0, 2, 3, 1]),
    ([(b"p", 0), (b"q", 0)], [(2, 4)], [6]),
    ([(b"a", 1), (b"key[0]", 0), (b"z", 1)], [(2, 4), (3, 6), (5, 9), (8, 12)], [14, 0, 11, 1]),
]

# Its length takes two bytes in version 2.
LONG_NAME: Pack = ([(b"n" * 128, 1)], [], [2])


class Refused(Exception):
    """A code with its word, and an offset."""


class Reader:
    """The bytes of a pack file, read field by field."""

    def __init__(self, data: bytes) -> None:
        self.data, self.at, self.version = data, 0, 1

    def take(self, count: int) -> tuple[bytes, int]:
        """The bytes of a field and its offset."""
        start = self.at
        if start + count > len(self.data):
            raise Refused("K3 Truncated", start)
        self.at += count
        return self.data[start : start + count], start

    def number(self, count: int) -> tuple[int, int]:
        """A number: count bytes in version 1, groups of seven digits in version 2."""
        if self.version == 1:
            field, start = self.take(count)
            return int.from_bytes(field, "big"), start
        start, value = self.at, 0
        for place in range(5):
            if self.at == len(self.data):
                raise Refused("K3 Truncated", start)
            byte = self.data[self.at]
            self.at += 1
            value += (byte % 128) << (7 * place)
            if byte < 128:
                if (byte == 0 and place > 0) or value >= 2**32:
                    raise Refused("K8 BadNumber", start)
                return value, start
        raise Refused("K8 BadNumber", start)


def check(is_well: bool, code: str, offset: int) -> None:
    """Refuses a field that isn't well formed."""
    if not is_well:
        raise Refused(code, offset)


def parameters_of(reader: Reader) -> list[tuple[bytes, int]]:
    """The parameters."""
    count, start = reader.number(2)
    check(count <= 65535, "K8 BadNumber", start)
    found: list[tuple[bytes, int]] = []
    for _ in range(count):
        length, start = reader.number(2)
        check(0 < length <= 65535, "K4 BadName", start)
        name, start = reader.take(length)
        is_clean = all(byte > 32 and byte not in (35, 127) for byte in name) and name[-1:] != b"\\"
        check(is_clean and name not in [other for other, _ in found], "K4 BadName", start)
        value, start = reader.take(1)
        check(value[0] < 2, "K4 BadName", start)
        found.append((name, value[0]))
    return found


def pair_of(reader: Reader, index: int) -> tuple[int, int, int]:
    """The literals of the fan-ins of the node of this index, and the pair's offset."""
    if reader.version == 1:
        field, start = reader.take(8)
        return int.from_bytes(field[:4], "big"), int.from_bytes(field[4:], "big"), start
    first, start = reader.number(4)
    second, _ = reader.number(4)
    return 2 * index - first - second, 2 * index - first, start


def decode(data: bytes) -> Pack:
    """The pack of a file."""
    reader = Reader(data)
    magic, _ = reader.take(4)
    check(magic == b"TPPC", "K1 Magic", 0)
    version, start = reader.take(2)
    check(version in (b"\0\1", b"\0\2"), "K2 Version", start)
    reader.version = version[1]
    parameters = parameters_of(reader)
    count, start = reader.number(4)
    check(count <= MOST, "K5 BadNode", start)
    pairs, first = [], 1 + len(parameters)
    for index in range(first, first + count):
        x, y, start = pair_of(reader, index)
        check(2 <= x < y < 2 * index and x // 2 != y // 2 and (x, y) not in pairs, "K5 BadNode", start)
        pairs.append((x, y))
    bits, (count, start) = [], reader.number(4)
    check(count <= MOST, "K6 BadBit", start)
    for _ in range(count):
        literal, start = reader.number(4)
        check(literal // 2 < first + len(pairs), "K6 BadBit", start)
        bits.append(literal)
    check(reader.at == len(data), "K7 Trailing", reader.at)
    return parameters, pairs, bits


def encode(pack: Pack, version: int) -> bytes:
    """The file of a pack."""

    def number(value: int, count: int) -> bytes:
        if version == 1:
            return value.to_bytes(count, "big")
        groups = [value % 128]
        while value >= 128:
            groups[-1] += 128
            value //= 128
            groups.append(value % 128)
        return bytes(groups)

    parameters, pairs, bits = pack
    parts = [b"TPPC", bytes([0, version]), number(len(parameters), 2)]
    for name, value in parameters:
        parts += [number(len(name), 2), name, bytes([value])]
    parts.append(number(len(pairs), 4))
    for index, (x, y) in enumerate(pairs, 1 + len(parameters)):
        both = (x, y) if version == 1 else (2 * index - y, y - x)
        parts += [number(value, 4) for value in both]
    return b"".join(parts + [number(len(bits), 4)] + [number(literal, 4) for literal in bits])


def wanted(data: bytes) -> Given:
    """The status, both outputs and the file NEW that `repack` has to give."""
    try:
        pack = decode(data)
    except Refused as refused:
        code, offset = refused.args
        return 3, b"", f"tlut: old.ppc: {code} byte {offset}\n".encode(), None
    return 0, f"bits {len(pack[2])}\n".encode(), b"", encode(pack, 2)


def spoilt(data: bytes) -> list[bytes]:
    """The file itself, its prefixes, and it with one byte changed, taken out or doubled."""
    found = {data} | {data[:n] for n in range(len(data))}
    for at in range(len(data)):
        found |= {data[:at] + bytes([value]) + data[at + 1 :] for value in range(256)}
        found |= {data[:at] + data[at + 1 :], data[: at + 1] + data[at:]}
    return sorted(found)


def answer(program: str, data: bytes) -> Given:
    """What the program gives."""
    with tempfile.TemporaryDirectory() as folder:
        with open(f"{folder}/old.ppc", "wb") as file:
            file.write(data)
        ran = subprocess.run([program, "repack", "old.ppc", "new.ppc"], cwd=folder, capture_output=True, timeout=60, check=False)
        new = None
        if os.path.exists(f"{folder}/new.ppc"):
            with open(f"{folder}/new.ppc", "rb") as file:
                new = file.read()
        return ran.returncode, ran.stdout, ran.stderr, new


def main() -> int:
    program = shared.one_program(__doc__)
    whole = [encode(pack, version) for pack in PACKS for version in (1, 2)] + [encode(LONG_NAME, 2)]
    files = [data for file in whole for data in spoilt(file)]
    failed = 0
    with ThreadPoolExecutor(2) as pool:
        for data, got in zip(files, pool.map(partial(answer, program), files)):
            if got != wanted(data):
                failed += 1
                print(f"{data.hex()}: {got}, wanted {wanted(data)}")
    return shared.summary(len(files) - failed, failed)


if __name__ == "__main__":
    sys.exit(main())
