"""The functions of a pack's bits as readable text.

ANDs and ORs of several operands are written in one row, exclusive ors and choices are found, and a node that several places read and
that isn't short gets a name, `g` and its index, and a line of its own.
"""

from __future__ import annotations

import re
from itertools import count
from typing import Optional

from tlutflow.pack import Pack

# A shared node is written out where its formula has at most so many operands.
SHORT = 3


class Formulas:
    """Formulas over a pack. Operators are `!`, `&`, `|`, `^` and `c ? a : b`."""

    def __init__(self, pack: Pack):
        self.pack = pack
        self.names = ["0", *pack.parameters]
        self.readers = readers_of(pack)
        # What the names of shared nodes begin with: no parameter is called so.
        self.mark = next(mark for mark in ("_" * times + "g" for times in count()) if not any(re.fullmatch(mark + "[0-9]+", name) for name in pack.parameters))
        self.written: dict[int, tuple[str, int]] = {}

    def of_bit(self, address: int) -> str:
        """The formula of a configuration bit, without outer parentheses."""
        return bare(self.of_literal(self.pack.bits[address]))

    def definitions(self, texts: list[str]) -> list[str]:
        """The lines `gN = formula` that the formulas `texts` and these lines need, from the lowest index on."""
        lines: dict[int, str] = {}
        waiting = list(texts)
        while waiting:
            for word in words_of(waiting.pop()):
                index = self.named_index(word)
                if index is not None and index not in lines:
                    lines[index] = bare(self.formula(index, False)[0])
                    waiting.append(lines[index])
        return [f"{self.mark}{index} = {lines[index]}" for index in sorted(lines)]

    def named_index(self, word: str) -> Optional[int]:
        """The index of which a word of a formula is the name, or None."""
        found = re.fullmatch(self.mark + "([0-9]{1,9})", word)
        return int(found[1]) if found else None

    def of_literal(self, literal: int) -> str:
        """The formula of a literal, with the names of shared nodes."""
        self.write(literal >> 1)
        return self.operand(literal)[0]

    def write(self, index: int) -> None:
        """Builds the formulas of a node and of all nodes below it, the lowest first, so the recursion isn't deep."""
        needed, waiting = set(), [index]
        while waiting:
            it = waiting.pop()
            pair = self.pack.fan_ins(it)
            if pair is not None and it not in needed and 2 * it not in self.written:
                needed.add(it)
                waiting += [pair[0] >> 1, pair[1] >> 1]
        for it in sorted(needed):
            for complement in (0, 1):
                self.written[2 * it + complement] = self.formula(it, bool(complement))

    def operand(self, literal: int) -> tuple[str, int]:
        """The text of a literal within a formula, and the number of its operands."""
        index, complement = literal >> 1, literal & 1
        if index == 0:
            return str(complement), 1
        if index < self.pack.first_node:
            return "!" * complement + self.names[index], 1
        text, size = self.written[literal]
        if self.readers.get(index, 0) > 1 and size > SHORT:
            return "!" * complement + f"{self.mark}{index}", 1
        return text, size

    def formula(self, index: int, complement: bool) -> tuple[str, int]:
        """The formula of a node or its complement, in parentheses, and how many operands it has."""
        chosen = self.choice(index)
        if chosen is not None:
            return self.choice_text(*chosen, complement)
        pair = self.pack.fan_ins(index)
        assert pair is not None
        sign = "|" if complement else "&"
        parts = [self.operand(it ^ complement) for it in pair]
        joined = f" {sign} ".join(bare(text) if is_row_of(text, sign) else text for text, _ in parts)
        return f"({joined})", sum(size for _, size in parts)

    def choice(self, index: int) -> Optional[tuple[int, int, int]]:
        """The literals c, a and b for which a node is the complement of `c ? a : b`, or None. For an exclusive or b is not a."""
        pair = self.pack.fan_ins(index)
        if pair is None or not pair[0] & pair[1] & 1:
            return None
        below = [self.pack.fan_ins(it >> 1) for it in pair]
        if below[0] is None or below[1] is None:
            return None
        for c in below[0]:
            if c ^ 1 in below[1]:
                a = below[0][1] if c == below[0][0] else below[0][0]
                b = below[1][1] if c ^ 1 == below[1][0] else below[1][0]
                return c, a, b
        return None

    def choice_text(self, c: int, a: int, b: int, complement: bool) -> tuple[str, int]:
        """The text of `c ? a : b` where `complement` holds, else of its complement."""
        if not complement:
            a, b = a ^ 1, b ^ 1
        if a == b ^ 1:
            turned = c & 1 ^ b & 1
            left, right = self.operand(c & ~1), self.operand(b & ~1)
            return f"({'!' if turned else ''}{left[0]} ^ {right[0]})", left[1] + right[1]
        if c & 1:
            c, a, b = c ^ 1, b, a
        parts = [self.operand(it) for it in (c, a, b)]
        return "({} ? {} : {})".format(*(text for text, _ in parts)), sum(size for _, size in parts)


def readers_of(pack: Pack) -> dict[int, int]:
    """How many nodes and bits read each index."""
    readers: dict[int, int] = {}
    read = [literal for pair in pack.nodes for literal in pair] + pack.bits
    for literal in read:
        readers[literal >> 1] = readers.get(literal >> 1, 0) + 1
    return readers


def words_of(text: str) -> list[str]:
    """The names in a formula."""
    return [word.strip("!()") for word in text.split(" ")]


def bare(text: str) -> str:
    """A formula without its outer parentheses."""
    return text[1:-1] if is_whole(text) else text


def is_whole(text: str) -> bool:
    """Whether the first parenthesis closes at the end."""
    if not text.startswith("("):
        return False
    depth = 0
    for place, character in enumerate(text):
        depth += (character == "(") - (character == ")")
        if depth == 0:
            return place == len(text) - 1
    return False


def is_row_of(text: str, sign: str) -> bool:
    """Whether a formula in parentheses is a row of this operator."""
    if not is_whole(text):
        return False
    depth = 0
    for word in text[1:-1].split(" "):
        if depth == 0 and word in ("&", "|", "^", "?", ":"):
            return word == sign
        depth += word.count("(") - word.count(")")
    return False
