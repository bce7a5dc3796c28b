"""Shorter forms of the equations of a lemma. None of them is known to be proved: a check must try each."""

import re
from dataclasses import dataclass
from functools import partial
from typing import Callable, Iterator, NamedTuple, Optional

from lemma_text import Block, Equation, Let, body_of, head_of, indent_of, joined, let_chain, let_named, lets_of, outside, split_outside, uses, word

LONGEST = 200
NOT_CITED = set(
    "ℕ Bool List zero suc true false refl ap subst sym arith None Some Ok Err inl inr choose omega cc rules Option Result length take drop get_or map"
    " set absurd max min not In tt Unit rec of slice_get replicate reverse pub".split()
)
CONSTRUCTORS = {"zero", "suc", "true", "false", "inl", "inr"}
TACTIC = re.compile(r"(omega|search|grind|cc|elim|record|rw|simp|absurd|λ)\b")
OMEGA = re.compile(r"(?<![\w\-])omega \(?arith")
FINAL_OMEGA = re.compile(r"^(absurd \()?omega (?:arith|\(arith, (.*)\))(\))?$")
VARIABLE = re.compile(r"^[a-z_][\w'\-]*$")


@dataclass
class Form:
    """A shorter form of an equation: what it is called, and how it is made."""

    label: str
    make: Callable[[Equation], Optional[Equation]]


class Catch(NamedTuple):
    """One equation in place of several that are alike."""

    label: str
    equations: frozenset[int]
    line: str


@dataclass
class Scope:
    """What a lemma's proof can cite."""

    own: str
    known: set[str]
    definitions: set[str]

    def lemmas(self, text: str) -> list[str]:
        """The lemmas that a text names."""
        found = dict.fromkeys(re.findall(r"[^\s(){}\[\],;]+", text))
        able = self.known - NOT_CITED - self.definitions - {self.own}
        return [name for name in found if name in able and "◌" not in name and name[0].islower()]

    def calls(self, text: str) -> list[str]:
        """The calls of the lemma itself."""
        found = re.finditer(r"(?<![\w\-.])" + re.escape(self.own) + r"(?![\w\-◌])", text)
        terms = dict.fromkeys(term_at(text, it.start()) for it in found)
        return [term for term in terms if term != self.own]

    def asked(self, tactic: str, text: str) -> str:
        """A tactic with what the text names."""
        names = ["rules" if tactic == "search" else "arith", *self.lemmas(text), *self.calls(text)]
        return f"{tactic} ({', '.join(names)})" if len(names) > 1 else f"{tactic} {names[0]}"


def term_at(text: str, start: int) -> str:
    """The application that begins at a place."""
    rest, depth = text[start:], 0
    free = outside(rest)
    for at, char in enumerate(rest):
        depth += (char in "([{") - (char in ")]}")
        if depth < 0 or free[at] and (char in ",;∙" or rest[at : at + 4] == " in "):
            return rest[:at].strip()
    return rest.strip()


def always(lines: Equation) -> Callable[[Equation], Optional[Equation]]:
    """A form that is known in full."""
    return lambda equation: lines


def whole_forms(equation: Equation, scope: Scope) -> Iterator[Form]:
    """The whole body by one tactic."""
    head = head_of(equation[0])
    if head is None or len(equation) < 2:
        return
    body = body_of(equation, head)
    is_made = body.startswith(("record", "elim"))
    by_omega = None if is_made else whole_omega(head, body)
    if by_omega:
        yield Form("whole by omega", always(by_omega))
    if len(equation) <= 8 and not is_made and scope.lemmas(body) + scope.calls(body):
        yield Form("whole by grind alone", always([f"{head} = grind arith"]))
    if len(equation) <= 16 and not is_made:
        yield Form("whole by grind", always([f"{head} = {scope.asked('grind', body)}"]))
    if len(equation) <= 16:
        yield Form("whole by search", always([f"{head} = {scope.asked('search', body)}"]))


def whole_omega(head: str, body: str) -> Optional[Equation]:
    """The facts that only the final `omega` reads are put into its list."""
    chain = let_chain(body)
    last = FINAL_OMEGA.match(chain[1]) if chain else None
    if chain is None or last is None:
        return None
    kept: list[Let] = []
    moved: list[str] = []
    for at, let in enumerate(chain[0]):
        later = [chain[1], *(part for other in chain[0][at + 1 :] for part in (other.proof, other.type))]
        is_read = any(re.search(r"(?<![\w\-'◌])" + re.escape(let.name) + r"(?![\w\-'◌])", part) for part in later)
        if is_read or not let.type or TACTIC.match(let.proof):
            kept.append(let)
        else:
            moved.append(let.proof)
    if not moved:
        return None
    final = f"{last[1] or ''}omega ({', '.join(['arith', *moved, *([last[2]] if last[2] else [])])}){last[3] or ''}"
    if not kept and len(head) + len(final) < 150:
        return [f"{head} = {final}"]
    pad = " " * indent_of(head) + "    "
    lines = [f"{pad}let {let.name}{' : ' + let.type if let.type else ''} = {let.proof} in" for let in kept]
    lines = [f"{head} =", *lines, pad + final]
    return lines if all(len(line) <= LONGEST for line in lines) else None


def dropped(equation: Equation, name: str) -> Optional[Equation]:
    """Without a `let`."""
    let = let_named(equation, name)
    return None if let is None else equation[: let.first] + equation[let.last + 1 :]


def moved_to_omega(equation: Equation, name: str) -> Optional[Equation]:
    """A fact is put into the list of the one `omega` below it."""
    let = let_named(equation, name)
    rest = equation[let.last + 1 :] if let else []
    places = [at for at, line in enumerate(rest) for _ in OMEGA.findall(line)]
    if let is None or len(places) != 1:
        return None
    line = rest[places[0]]
    if "omega arith" in line:
        line = line.replace("omega arith", f"omega (arith, {let.proof})", 1)
    else:
        line = line.replace("omega (arith", f"omega (arith, {let.proof}", 1)
    rest[places[0]] = line
    return equation[: let.first] + rest if len(line) <= LONGEST else None


def inlined(equation: Equation, name: str) -> Optional[Equation]:
    """A `let` is put where it is read, if this is one place."""
    let = let_named(equation, name)
    rest = equation[let.last + 1 :] if let else []
    places = [at for at, line in enumerate(rest) if uses(name, [line])]
    if let is None or uses(name, rest) != 1:
        return None
    line = put_in(rest[places[0]], name, let.proof)
    if len(line) > LONGEST or re.match(r"^\s*\([^,]*,?\)$", line):
        return None
    rest[places[0]] = line
    return equation[: let.first] + rest


def put_in(line: str, name: str, proof: str) -> str:
    """A proof in place of its name, in brackets if it needs them."""
    found = re.search(word(name) + r"(?! = )", line)
    assert found is not None
    before, after = line[: found.start()], line[found.end() :]
    is_bracketed = before.endswith("(") and after.startswith(")")
    is_value = re.search(r"(= |↦ )$", before) and after in ("", ";")
    is_item = re.search(r"[(,] ?$", before) and re.match(r"[,)]", after) and "elim" not in proof and " in " not in proof
    is_short = re.match(r"^[^\s(){}]+$|^\([^()]*\)$", proof)
    return before + (proof if is_short or is_bracketed or is_value or is_item else f"({proof})") + after


def let_forms(equation: Equation) -> Iterator[Form]:
    """A `let` dropped, moved into an `omega`, or inlined."""
    for let in lets_of(equation):
        count = uses(let.name, equation[let.last + 1 :])
        is_fact = let.type and not TACTIC.match(let.proof) and "let " not in let.proof and "_" not in let.proof.split()
        is_plain = not let.proof.startswith(("λ", "(λ", "record")) and "[" not in let.proof.replace("[]", "") and not let.proof.endswith(",)")
        if count == 0:
            yield Form(f"drop {let.name}", partial(dropped, name=let.name))
        if count == 0 and is_fact:
            yield Form(f"to omega {let.name}", partial(moved_to_omega, name=let.name))
        if count == 1 and is_plain:
            yield Form(f"inline {let.name}", partial(inlined, name=let.name))


def below_lets(equation: Equation) -> int:
    """The line where the term below the outermost `let`s begins."""
    at = 1
    for let in lets_of(equation):
        if let.first == at:
            at = let.last + 1
    return at


def with_final(equation: Equation, final: str) -> Optional[Equation]:
    """The term below the outermost `let`s by one tactic."""
    at = below_lets(equation)
    return None if at == 1 else [*equation[:at], " " * indent_of(equation[1]) + final]


def final_forms(equation: Equation, scope: Scope) -> Iterator[Form]:
    """A final `grind`."""
    at = below_lets(equation)
    final = joined(equation[at:])
    if at > 1 and len(equation) - at >= 2 and not final.startswith(("record", "elim")):
        yield Form("final grind", partial(with_final, final=scope.asked("grind", final)))


def forms_of(equation: Equation, scope: Scope) -> Iterator[Form]:
    """The forms of an equation that have fewer lines."""
    if head_of(equation[0]) is None:
        return
    for form in [*whole_forms(equation, scope), *let_forms(equation), *final_forms(equation, scope)]:
        made = form.make(equation)
        if made is not None and len(made) < len(equation):
            yield form


def constructors_of(text: str) -> Iterator[str]:
    """The constructors of the types that a file defines."""
    depth: Optional[int] = None
    for line in filter(str.strip, text.split("\n")):
        found = re.match(r"^\s+(\S+) : ", line)
        if re.match(r"^\s*(pub )?data ", line):
            depth = indent_of(line)
        elif depth is not None and indent_of(line) <= depth:
            depth = None
        elif depth is not None and indent_of(line) == depth + 2 and found:
            yield found[1]


def names_of_type(signature: list[str]) -> list[str]:
    """The names of the explicit arguments; an argument without a name has an empty one."""
    names: list[str] = []
    for part in map(str.strip, split_outside(joined(signature).split(" : ", 1)[1], " → ")):
        groups = re.findall(r"\(([^():]+) : ", part) if part.startswith("(") else []
        names += [name for group in groups for name in group.split()]
        if not re.match(r"^\([^():]+ : ", part) and not part.startswith("{"):
            names.append("")
    return names


class Cases:
    """The equations of a lemma, by argument."""

    def __init__(self, block: Block, constructors: set[str]) -> None:
        self.constructors = constructors | CONSTRUCTORS
        heads = [head_of(joined(equation)) for equation in block.equations]
        self.arguments = [[part for part in split_outside(head.strip(), " ") if part] for head in heads if head is not None]
        self.bodies = [body_of(equation, head) for equation, head in zip(block.equations, heads) if head is not None]
        self.is_readable = None not in heads
        self.pad, self.names = " " * block.indent, names_of_type(block.signature)

    def groups(self) -> Iterator[list[int]]:
        """Equations that have the same body: all of them, or those that agree on one argument too."""
        for body in dict.fromkeys(self.bodies):
            alike = [at for at, other in enumerate(self.bodies) if other == body]
            if len(alike) > 1 and len({len(self.arguments[at]) for at in alike}) == 1:
                yield alike
                yield from self.parts(alike)

    def parts(self, alike: list[int]) -> Iterator[list[int]]:
        """The equations of a group that agree on one argument."""
        for place in range(1, len(self.arguments[alike[0]])):
            texts = dict.fromkeys(self.arguments[at][place] for at in alike)
            parts = [[at for at in alike if self.arguments[at][place] == text] for text in texts]
            yield from (part for part in parts if len(texts) > 1 and len(part) > 1)

    def binds(self, texts: list[str]) -> set[str]:
        """The names that patterns bind."""
        found = set(re.findall(r"[^\s(){}\[\],;=]+", " ".join(texts)))
        if texts[0].startswith("{"):
            return found
        return {name for name in found - self.constructors if name[0].islower() or name[0] == "_"} - {"absurd", "cc", "omega", "arith", "refl", "tt"}

    def name_at(self, place: int, text: str, size: int) -> str:
        """A name for an argument: another equation's, the type's, or a new one."""
        others = (it[place] for it in self.arguments if len(it) == size)
        named = [it for it in others if VARIABLE.match(it) and it not in self.constructors]
        of_type = self.names[place - 1] if len(self.names) >= size - 1 else ""
        return (named + [of_type or ("items" if text == "[]" else "other")])[0]

    def merged(self, group: list[int]) -> Optional[str]:
        """The equation in place of a group."""
        body, rows = self.bodies[group[0]], [self.arguments[at] for at in group]
        columns = [list(texts) for texts in zip(*rows)]
        taken = set(re.findall(r"[^\s(){}\[\],;.]+", body))
        differing = [texts for texts in columns if len(set(texts)) > 1]
        if any(self.binds(texts) & taken for texts in differing) or len(body) >= 150:
            return None
        taken |= {name for texts in columns[1:] if texts not in differing for name in re.findall(r"[^\s(){}\[\],;]+", texts[0])}
        arguments = []
        for place, texts in enumerate(columns):
            name = texts[0]
            if texts in differing and name.startswith("{"):
                continue
            if texts in differing:
                name = self.name_at(place, name, len(columns))
                while name in taken:
                    name += "'"
                taken.add(name)
            arguments.append(name)
        return f"{self.pad}{' '.join(arguments)} = {body}"


def catches_of(block: Block, constructors: set[str]) -> Iterator[Catch]:
    """The ways to merge equations of a lemma."""
    cases = Cases(block, constructors)
    if not cases.is_readable or len(block.equations) < 2:
        return
    groups: dict[frozenset[int], list[int]] = {frozenset(group): group for group in cases.groups()}
    for key, group in groups.items():
        line = cases.merged(group)
        if line is not None:
            yield Catch(f"catch {group}", key, line)
