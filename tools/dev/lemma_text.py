"""The text of a file of lemmas: its blocks, the equations of each lemma, and the `let`s of an equation."""

import re
from dataclasses import dataclass, field
from typing import NamedTuple, Optional

Equation = list[str]
LET_LINE = re.compile(r"^(\s+)let (\S+) (?:: (.*?) )?=( .*)?$")
LET = re.compile(r"^let (\S+) (?:: (.*?) )?= (.*) in$")
LET_PART = re.compile(r"^(\S+) (?:: (.*?) )?= (.*)$")
LET_TOKEN = re.compile(r"[(\[{]|[)\]}]|(?<![\w\-'.])let (?=\S)|(?<![\w\-'.])in(?= |$)")
NOT_LEMMA = ("use ", "pub use", "pub record", "record ")


@dataclass
class Block:
    """Lines between two empty ones. If they are a lemma: its name, the lines above it, its type and its equations."""

    lines: list[str]
    name: str = ""
    indent: int = 0
    head: list[str] = field(default_factory=list)
    signature: list[str] = field(default_factory=list)
    equations: list[Equation] = field(default_factory=list)

    @property
    def can_change(self) -> bool:
        """A lemma that others don't unfold, and that isn't the first of mutual ones."""
        is_unfolded = self.name and re.match(r"^\s*(abbrev|unfoldable)", self.signature[0])
        return bool(self.equations) and not is_unfolded and "mutual" not in "".join(self.head)

    @property
    def is_public(self) -> bool:
        """Whether other files can import it."""
        return bool(self.equations) and self.signature[0].strip().startswith(("pub ", "abbrev pub "))


class Let(NamedTuple):
    """A `let` with its first and last line in the equation."""

    name: str
    type: str
    proof: str
    first: int
    last: int


def indent_of(line: str) -> int:
    """The spaces in front."""
    return len(line) - len(line.lstrip(" "))


def joined(lines: list[str]) -> str:
    """Lines as one."""
    return " ".join(line.strip() for line in lines)


def word(name: str) -> str:
    """The pattern of a name that is no part of another one."""
    return r"(?<![\w\-'◌.])" + re.escape(name) + r"(?![\w\-'◌])"


def uses(name: str, lines: list[str]) -> int:
    """How often the lines read a name; a field of this name is none."""
    return sum(len(re.findall(word(name) + r"(?! = )", line)) for line in lines)


def outside(text: str) -> list[bool]:
    """Of each character: whether it is outside of all brackets."""
    depth, result = 0, []
    for char in text:
        depth += (char in "([{") - (char in ")]}")
        result.append(depth == 0 and char not in ")]}")
    return result


def split_outside(text: str, mark: str) -> list[str]:
    """The parts between marks that are outside of all brackets."""
    free, parts, start = outside(text), [], 0
    for found in re.finditer(re.escape(mark), text):
        if free[found.start()]:
            parts.append(text[start : found.start()])
            start = found.end()
    return [*parts, text[start:]]


def head_of(line: str) -> Optional[str]:
    """What stands before the `=` of an equation."""
    free = outside(line)
    ends = (at for at in range(len(line)) if free[at] and (line[at : at + 3] == " = " or line[at:] == " ="))
    end = next(ends, None)
    return None if end is None else line[:end]


def body_of(equation: Equation, head: str) -> str:
    """What stands behind the `=`."""
    return joined(equation)[len(head.strip()) + 2 :].strip()


def equations_of(lines: list[str], pad: str) -> list[Equation]:
    """The lines below a type, by equation."""
    equations: list[Equation] = []
    for line in lines:
        goes_on = line.startswith(pad + " ") or line[len(pad) : len(pad) + 1] in ("}", ")", "]")
        if goes_on and equations:
            equations[-1].append(line)
        else:
            equations.append([line])
    return equations


def block_of(lines: list[str]) -> Block:
    """Reads a block."""
    block, at = Block(lines), 0
    if lines[0].startswith("module _"):
        at = next((place + 1 for place, line in enumerate(lines) if line.rstrip().endswith(" where")), len(lines))
    if at >= len(lines):
        return block
    pad = " " * indent_of(lines[at])
    while at < len(lines) and lines[at].startswith(pad + "--"):
        at += 1
    found = re.match("^" + pad + r"(?:abbrev |unfoldable )?(?:pub )?(\S+) : ", lines[at] + " ") if at < len(lines) else None
    if found is None or len(pad) not in (0, 2) or lines[at].strip().startswith(NOT_LEMMA):
        return block
    end = at + 1
    while end < len(lines) and lines[end].startswith((pad + " ", pad + "unfolding ")):
        end += 1
    block.name, block.indent = found[1], len(pad)
    block.head, block.signature, block.equations = lines[:at], lines[at:end], equations_of(lines[end:], pad)
    return block


def blocks_of(text: str) -> list[Block]:
    """Reads a file."""
    parts = re.split(r"\n(?:[ \t]*\n)+", text.strip("\n"))
    return [block_of(part.split("\n")) for part in parts if part.strip()]


def last_line(equation: Equation, first: int) -> Optional[int]:
    """The line that ends with the `in` of a `let`, if there is one."""
    brackets = depth = 0
    for at in range(first, len(equation)):
        line = equation[at]
        depth += len(re.findall(r"(?<![\w\-.])let ", line)) - len(re.findall(r"(?<![\w\-.])in(?= |$)", line))
        brackets += sum(map(line.count, "([{")) - sum(map(line.count, ")]}"))
        if depth == 0:
            return at if line.endswith(" in") and brackets == 0 else None
    return None


def lets_of(equation: Equation) -> list[Let]:
    """The `let`s that have their lines for themselves."""
    result = []
    for first in range(1, len(equation)):
        last = last_line(equation, first) if LET_LINE.match(equation[first]) else None
        found = LET.match(joined(equation[first : last + 1])) if last is not None else None
        if last is not None and found:
            result.append(Let(found[1], found[2] or "", found[3], first, last))
    return result


def let_named(equation: Equation, name: str) -> Optional[Let]:
    """The first `let` of a name."""
    return next((let for let in lets_of(equation) if let.name == name), None)


def end_of_let(body: str) -> Optional[re.Match[str]]:
    """The `in` of the `let` that a body begins with."""
    brackets = depth = 0
    for token in LET_TOKEN.finditer(body):
        brackets += (token[0] in "([{") - (token[0] in ")]}")
        if brackets == 0 and token[0] in ("let ", "in"):
            depth += 1 if token[0] == "let " else -1
            if depth == 0:
                return token
    return None


def let_chain(body: str) -> Optional[tuple[list[Let], str]]:
    """The `let`s that a body begins with, and what is left."""
    chain: list[Let] = []
    while body.startswith("let "):
        end = end_of_let(body)
        found = LET_PART.match(body[4 : end.start()].strip()) if end else None
        if not end or not found:
            return None
        chain.append(Let(found[1], found[2] or "", found[3], 0, 0))
        body = body[end.end() :].strip()
    return chain, body
