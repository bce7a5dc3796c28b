#!/usr/bin/env python3
"""Makes texts whose names collide in a hash table, and compares their time with that of drawn texts.

    python3 tools/hostile_names.py [PROGRAM] [--names N] [--pairs N] [--repeats N] [--limit RATIO] [--keep FOLDER]

Outside the gate. Call `./tlut` once before, to build the program. A form is a command and a kind of text: a netlist, an AIGER file, a
parameter list, a script or a pack with N names, or a netlist or a pack with N pairs of fan-ins. For each form a text is drawn, and texts of
the same size and form are made by four attacks:

    fixed     names (pairs) with one and the same hash of the hasher without a key that the program had at first
    constant  names (pairs) that meet in a sixteenth of the table under the key of no text
    prefix    the same under the key of the text before the first name (pair)
    guessed   the same under the key of the drawn text of the form

The last three are what is left to whoever knows how keys are computed. Printed is the processor time of the program on each text, the
least of some runs, and its ratio to that of the drawn text. The last line is `N passed, M failed`; a ratio above RATIO (4) fails, and the
exit status is 1 if M isn't 0. `--keep` leaves the texts in a folder.
"""

from __future__ import annotations

import os
import random
import struct
import sys
import tempfile
from dataclasses import dataclass
from typing import Callable, Optional

import shared

WORD = (1 << 64) - 1

# The bytes that the names are made of: none that ends or begins anything in one of the formats.
LETTERS = [byte for byte in range(33, 256) if chr(byte) not in '#=\\\x7f']
IS_LETTER = frozenset(LETTERS)

# The part of a table in which hostile names meet.
PART = 16

Key = tuple[int, int]
Pair = tuple[int, int]
Files = dict[str, bytes]


# The hashes without a key.

FIXED_START = 0x243F6A8885A308D3
FIXED_FACTOR = 0x9E3779B97F4A7C15


def folded(factor: int, word: int) -> int:
    """The two halves of a product, joined by an exclusive or."""
    product = factor * word
    return (product & WORD) ^ (product >> 64)


def fixed_names(count: int, draw: random.Random) -> list[bytes]:
    """Names of 16 bytes with one hash: the second half of each undoes what the first half did."""
    meeting = draw.getrandbits(64)
    names: set[bytes] = set()
    while len(names) < count:
        half = bytes(draw.choices(LETTERS, k=8))
        other = (folded(FIXED_FACTOR, FIXED_START ^ int.from_bytes(half, "little")) ^ meeting).to_bytes(8, "little")
        if all(byte in IS_LETTER for byte in other):
            names.add(half + other)
    return mixed(names, draw)


def fixed_pair_hash(pair: Pair) -> int:
    """The hash of two literals, of four bytes each, by the standard library's hasher."""
    state = FIXED_START
    for literal in pair:
        state = folded(FIXED_FACTOR ^ 8, state ^ (literal | literal << 32))
    return state


# The hash under a key, as in crates/text_key.

SipState = tuple[int, int, int, int]


def turned(word: int, places: int) -> int:
    return (word << places | word >> (64 - places)) & WORD


def rounded(state: SipState) -> SipState:
    """The state after a round of SipHash."""
    v0, v1, v2, v3 = state
    a0, a2 = (v0 + v1) & WORD, (v2 + v3) & WORD
    a1, a3 = turned(v1, 13) ^ a0, turned(v3, 16) ^ a2
    b0, b2 = (turned(a0, 32) + a3) & WORD, (a2 + a1) & WORD
    return b0, turned(a1, 17) ^ b2, turned(b2, 32), turned(a3, 21) ^ b0


def with_word(state: SipState, word: int) -> SipState:
    v0, v1, v2, v3 = rounded((state[0], state[1], state[2], state[3] ^ word))
    return v0 ^ word, v1, v2, v3


def words_of(data: bytes) -> tuple[list[int], bytes]:
    """The words of eight bytes that data begins with, and the bytes behind them."""
    whole = len(data) // 8
    return list(struct.unpack(f"<{whole}Q", data[: 8 * whole])), data[8 * whole :]


def behind(word: int, data: bytes) -> int:
    for byte in data:
        word = (word << 8 | byte) & WORD
    return word


def joined(state: SipState) -> int:
    return state[0] ^ state[1] ^ state[2] ^ state[3]


def key_of(data: bytes) -> Key:
    """The key of a text."""
    state = (0x736F6D6570736575, 0x646F72616E646F83, 0x6C7967656E657261, 0x7465646279746573)
    words, rest = words_of(data)
    for word in [*words, behind(1, rest)]:
        state = with_word(state, word)
    first = (state[0], state[1], state[2] ^ 0xEE, state[3])
    first = rounded(rounded(rounded(first)))
    second = rounded(rounded(rounded((first[0], first[1] ^ 0xDD, first[2], first[3]))))
    return joined(first), joined(second) | 1


def keyed_hash(key: Key, data: bytes) -> int:
    """The hash of bytes under a key."""
    state, factor = key
    words, rest = words_of(data)
    for word in words:
        state = folded(factor, state ^ word)
    return folded(factor, folded(factor, state ^ behind(1, rest)))


def keyed_pair_hash(key: Key, pair: Pair) -> int:
    return keyed_hash(key, struct.pack("<II", *pair))


# Names and pairs.


def mixed(names: set[bytes], draw: random.Random) -> list[bytes]:
    """The names in an order that the seed decides."""
    all_names = sorted(names)
    draw.shuffle(all_names)
    return all_names


def drawn_name(draw: random.Random) -> bytes:
    return bytes(draw.choices(LETTERS, k=16))


def groups_of(count: int) -> int:
    """The number of groups of the program's hash table for so many entries."""
    groups = 1
    while 9 * groups < count:
        groups *= 2
    return groups


def names_where(count: int, draw: random.Random, is_chosen: Callable[[bytes], bool]) -> list[bytes]:
    """Drawn names that pass a test."""
    names: set[bytes] = set()
    while len(names) < count:
        name = drawn_name(draw)
        if is_chosen(name):
            names.add(name)
    return mixed(names, draw)


def pairs_where(count: int, sources: int, draw: random.Random, is_chosen: Callable[[Pair], bool]) -> list[Pair]:
    """Drawn pairs of literals of different sources, in ascending order, that pass a test."""
    pairs: set[Pair] = set()
    while len(pairs) < count:
        x, y = sorted(draw.sample(range(1, sources + 1), 2))
        pair = (2 * x, 2 * y)
        if pair not in pairs and is_chosen(pair):
            pairs.add(pair)
    all_pairs = sorted(pairs)
    draw.shuffle(all_pairs)
    return all_pairs


def drawn_names(count: int, draw: random.Random) -> list[bytes]:
    return names_where(count, draw, lambda name: True)


# The forms.


@dataclass
class Form:
    """A command and a kind of text: its files for some names, the bytes before the first one, and the file that has them."""

    name: str
    words: list[str]
    files: Callable[[list[bytes]], Files]
    text: str
    head: bytes


@dataclass
class PairForm:
    """A command and a kind of text with pairs of fan-ins over some sources."""

    name: str
    words: list[str]
    files: Callable[[list[Pair]], Files]
    text: str
    head: bytes
    sources: int


def blif_of(inputs: list[bytes]) -> bytes:
    """A netlist whose inputs have these names."""
    return b".model m\n.inputs " + b" ".join(inputs) + b"\n.outputs y\n.names " + inputs[0] + b" " + inputs[1] + b" y\n11 1\n.end\n"


def aiger_head(count: int) -> bytes:
    """The lines of an AIGER file before its symbols."""
    lines = [f"aag {count + 1} {count} 0 1 1"]
    lines += [str(2 * place) for place in range(1, count + 1)]
    lines += [str(2 * count + 2), f"{2 * count + 2} 4 2"]
    return ("\n".join(lines) + "\n").encode()


def aiger_of(inputs: list[bytes]) -> bytes:
    """An AIGER file whose inputs have these names."""
    return aiger_head(len(inputs)) + b"".join(b"i%d %s\n" % symbol for symbol in enumerate(inputs))


def pack_of(names: list[bytes], pairs: list[Pair]) -> bytes:
    """A pack of version 1 with these parameters and nodes, and no bit."""
    params = b"".join(struct.pack(">H", len(name)) + name + b"\0" for name in names)
    nodes = b"".join(struct.pack(">II", *pair) for pair in pairs)
    return b"TPPC" + struct.pack(">HH", 1, len(names)) + params + struct.pack(">I", len(pairs)) + nodes + struct.pack(">I", 0)


def script_of(names: list[bytes]) -> bytes:
    return b"set " + b" ".join(name + b"=1" for name in names) + b"\n"


def list_of(names: list[bytes]) -> bytes:
    return b"".join(name + b" 0\n" for name in names)


def source_names(count: int) -> list[bytes]:
    return [b"p%06d" % place for place in range(count)]


def covers_of(pairs: list[Pair], sources: int) -> bytes:
    """A netlist with an AND of two inputs for each pair."""
    names = source_names(sources)
    outputs = [b"y%d" % place for place in range(len(pairs))]
    head = b".model m\n.inputs " + b" ".join(names) + b"\n.outputs " + b" ".join(outputs) + b"\n"
    rows = [b".names %s %s %s\n11 1\n" % (names[x // 2 - 1], names[y // 2 - 1], out) for (x, y), out in zip(pairs, outputs)]
    return head + b"".join(rows) + b".end\n"


def forms(count: int) -> list[Form]:
    """The forms with names."""
    graph = ["graph", "n", "p", "o"]
    return [
        Form("netlist", graph, lambda names: {"n": blif_of(names), "p": b""}, "n", b".model m\n.inputs "),
        Form("AIGER", graph, lambda names: {"n": aiger_of(names), "p": b""}, "n", aiger_head(count) + b"i0 "),
        Form("list", graph, lambda names: {"n": blif_of(names), "p": list_of(names[2:])}, "p", b""),
        Form("script", ["bits", "k", "s"], lambda names: {"k": pack_of(names, []), "s": script_of(names)}, "s", b"set "),
        Form("pack", ["bits", "k", "s"], lambda names: {"k": pack_of(names, []), "s": b""}, "k", pack_of([], [])[:8]),
    ]


def pair_forms(sources: int) -> list[PairForm]:
    """The forms with pairs."""
    names = source_names(sources)
    return [
        PairForm("netlist pairs", ["graph", "n", "p", "o"], lambda pairs: {"n": covers_of(pairs, sources), "p": b""}, "n", covers_of([], sources), sources),
        PairForm("pack pairs", ["bits", "k", "s"], lambda pairs: {"k": pack_of(names, pairs), "s": b""}, "k", pack_of(names, [])[:-8], sources),
    ]


# The runs.


def seconds(program: str, words: list[str], files: Files, folder: str, repeats: int) -> float:
    """The least processor time of some runs on files."""
    for name, data in files.items():
        with open(f"{folder}/{name}", "wb") as file:
            file.write(data)
    return min(one_run(program, words, folder) for _ in range(repeats))


def one_run(program: str, words: list[str], folder: str) -> float:
    """The processor time of a run, which must end with status 0."""
    process = os.fork()
    if process == 0:
        os.chdir(folder)
        nothing = os.open(os.devnull, os.O_RDWR)
        os.dup2(nothing, 1)
        os.execv(program, [program, *words])
    _, status, used = os.wait4(process, 0)
    if status != 0:
        sys.exit(f"hostile_names: {' '.join(words)} ended with {os.waitstatus_to_exitcode(status)} in {folder}")
    return float(used.ru_utime + used.ru_stime)


def attacked_names(form: Form, drawn: Files, count: int, draw: random.Random) -> list[tuple[str, Files]]:
    """The hostile files of a form with names, by their attacks."""
    groups = groups_of(count)

    def under(key: Key) -> Files:
        return form.files(names_where(count, draw, lambda name: keyed_hash(key, name) % groups * PART < groups))

    return [
        ("fixed", form.files(fixed_names(count, draw))),
        ("constant", under(key_of(b""))),
        ("prefix", under(key_of(form.head))),
        ("guessed", under(key_of(drawn[form.text]))),
    ]


def attacked_pairs(form: PairForm, drawn: Files, count: int, draw: random.Random) -> list[tuple[str, Files]]:
    """The hostile files of a form with pairs, by their attacks."""
    groups = groups_of(count)

    def where(hash_of: Callable[[Pair], int]) -> Files:
        return form.files(pairs_where(count, form.sources, draw, lambda pair: hash_of(pair) % groups * PART < groups))

    def under(key: Key) -> Files:
        return where(lambda pair: keyed_pair_hash(key, pair))

    return [
        ("fixed", where(fixed_pair_hash)),
        ("constant", under(key_of(b""))),
        ("prefix", under(key_of(form.head))),
        ("guessed", under(key_of(drawn[form.text]))),
    ]


class Trial:
    """The runs of a program, and how many kept the limit."""

    def __init__(self, program: str, folder: str, repeats: int, limit: float) -> None:
        self.program, self.folder, self.repeats, self.limit = program, folder, repeats, limit
        self.passed = self.failed = 0

    def timed(self, form: str, attack: str, words: list[str], files: Files) -> float:
        """The time on files, which are in a folder of their own."""
        folder = f"{self.folder}/{form} {attack}".replace(" ", "_")
        os.makedirs(folder, exist_ok=True)
        return seconds(self.program, words, files, folder, self.repeats)

    def run(self, form: str, words: list[str], drawn: Files, attacks: list[tuple[str, Files]]) -> None:
        """Prints the time of the drawn text of a form, and of each hostile one with its ratio."""
        usual = self.timed(form, "drawn", words, drawn)
        print(f"{form:14} {'drawn':9} {usual:8.3f} s", flush=True)
        for attack, files in attacks:
            took = self.timed(form, attack, words, files)
            ratio = took / usual
            kept = ratio <= self.limit
            self.passed, self.failed = self.passed + kept, self.failed + (not kept)
            print(f"{form:14} {attack:9} {took:8.3f} s  {ratio:6.1f} times{'' if kept else '  FAILED'}", flush=True)


def run_all(trial: Trial, names: int, pairs: int) -> None:
    """Runs all forms."""
    draw = random.Random(1)
    for form in forms(names):
        usual = form.files(drawn_names(names, draw))
        trial.run(form.name, form.words, usual, attacked_names(form, usual, names, draw))
    for wide in pair_forms(sources=3000):
        usual = wide.files(pairs_where(pairs, wide.sources, draw, lambda pair: True))
        trial.run(wide.name, wide.words, usual, attacked_pairs(wide, usual, pairs, draw))


def main() -> int:
    parser = shared.words(__doc__)
    parser.add_argument("program", metavar="PROGRAM", nargs="?", type=shared.path_of, default=shared.PROGRAM)
    parser.add_argument("--names", metavar="N", type=int, default=40000, help="names of a text, at most 65535 (default: 40000)")
    parser.add_argument("--pairs", metavar="N", type=int, default=40000, help="pairs of a text, at most 131072 (default: 40000)")
    parser.add_argument("--repeats", metavar="N", type=int, default=3, help="runs on a text (default: 3)")
    parser.add_argument("--limit", metavar="RATIO", type=float, default=4.0, help="the greatest ratio that passes (default: 4)")
    parser.add_argument("--keep", metavar="FOLDER", type=shared.path_of, help="the folder in which the texts are left")
    given = parser.parse_args()
    keep: Optional[str] = given.keep
    with tempfile.TemporaryDirectory() as folder:
        trial = Trial(given.program, keep or folder, given.repeats, given.limit)
        run_all(trial, given.names, given.pairs)
    return shared.summary(trial.passed, trial.failed)


if __name__ == "__main__":
    sys.exit(main())
