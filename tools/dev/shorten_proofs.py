#!/usr/bin/env python3
"""Tries shorter forms of each lemma of a crate as copies beside it, in one check; then puts in those that pass.

    python3 tools/dev/shorten_proofs.py CRATE [CHECKOUT] [--files REGEX] [--answers] [--trial-only]

Whatever was put in is checked again with the whole crate. A lemma that fails then is put back. If the crate still isn't proved after a few
rounds, all files are as they were. Imports that nothing uses any more are left to `rt check --fix-imports` or `rt tidy`.
"""

import argparse
import glob
import os
import re
import subprocess
import sys
import tempfile
from typing import NamedTuple, Optional

from lemma_forms import Catch, Form, Scope, catches_of, constructors_of, forms_of
from lemma_text import Block, Equation, blocks_of, word

ROUNDS = 8
LEFT = ("Lib.antt", "Common.antt", "Invariants.antt", "Proof.antt")
USE = re.compile(r"^(?:pub )?use (\S+?)\.\{(.*)\}$")
ERROR = re.compile(r"(proofs/\S+?\.antt):(\d+)(?::\d+)?: error: (?:`([^`]*)`)?")


class Attempt(NamedTuple):
    """A form of an equation of a lemma. The equation is -1 if the form merges several, and the label is empty for the lemma as it stands."""

    path: str
    lemma: str
    equation: int
    label: str


Line = tuple[str, Optional[Attempt]]


def read(path: str) -> str:
    """A file's text."""
    with open(path, encoding="utf-8") as file:
        return file.read()


def write(path: str, text: str) -> None:
    """Writes a file."""
    with open(path, "w", encoding="utf-8") as file:
        file.write(text)


def imported(text: str, part: str = "") -> set[str]:
    """The names that a file imports, from modules whose name has this part."""
    uses = filter(None, map(USE.match, text.split("\n")))
    return {name.strip().split(" as ")[-1] for use in uses if part in use[1] for name in use[2].split(",")}


def with_names(line: str, names: list[str]) -> str:
    """An import with more names."""
    have = [name.strip() for name in line[line.index("{") + 1 : -1].split(",")]
    return line[: line.index("{") + 1] + ", ".join([*have, *(name for name in names if name not in have)]) + "}"


def needed(lines: list[str]) -> list[str]:
    """The names that new lines need."""
    text = "\n".join(lines)
    names = {"arith": r"\b(grind|omega) \(?arith", "rules": r"\bsearch \(?rules"}
    return [name for name, pattern in names.items() if re.search(pattern, text)]


class Crate:
    """A crate's lemmas, their forms, and how its files were."""

    def __init__(self, checkout: str, name: str, pattern: str, answers: bool) -> None:
        self.name, self.answers = name, answers
        self.folder = os.path.abspath(f"{checkout}/crates/{name}")
        self.logs = tempfile.mkdtemp(prefix="shorten_proofs_")
        every = sorted(glob.glob(f"{self.folder}/proofs/**/*.antt", recursive=True))
        self.before = {path: read(path) for path in every}
        self.paths = [path for path in every if self.is_tried(path, pattern)]
        self.blocks = {path: blocks_of(self.before[path]) for path in self.paths}
        self.common = f"{self.folder}/proofs/Common.antt"
        self.definitions = {name for text in self.before.values() for name in imported(text, ".specs.")}
        self.forms: dict[Attempt, Form] = {}
        self.catches: dict[Attempt, Catch] = {}
        self.places: dict[tuple[str, int], Attempt] = {}
        parts = (path for part in ("specs", "proofs") for path in glob.glob(f"{checkout}/crates/*/{part}/**/*.antt", recursive=True))
        self.constructors = {it for path in parts for it in constructors_of(read(path))}

    def is_tried(self, path: str, pattern: str) -> bool:
        """Whether a file's lemmas are tried."""
        name = os.path.basename(path)
        is_left = name in LEFT or name.endswith(("Examples.antt", "Example.antt")) or name == "Answers.antt" and not self.answers
        return not is_left and bool(re.search(pattern, path))

    def check(self, log: str, *more: str) -> str:
        """What `rt check` says."""
        done = subprocess.run(["rt", "check", *more], cwd=self.folder, capture_output=True, text=True)
        write(f"{self.logs}/{log}.log", done.stdout + done.stderr)
        return done.stdout + done.stderr

    def restore(self) -> None:
        """All files as they were."""
        for path, text in self.before.items():
            if read(path) != text:
                write(path, text)

    def save(self, path: str, lines: list[Line], names: list[str]) -> None:
        """Writes a file that needs these names, and keeps what each line belongs to."""
        text = [line for line, _ in lines]
        names = [name for name in names if name not in imported("\n".join(text))]
        own = f"use Rattle.{self.name}.proofs.Common.{{"
        place = next((at for start in (own, "use Rattle.std.proofs.Common.{") for at, line in enumerate(text) if line.startswith(start)), None)
        if names and place is not None:
            lines[place] = (with_names(text[place], names), None)
        elif names:
            first = next((at for at, line in enumerate(text) if USE.match(line)), len(self.blocks[path][0].lines))
            source = self.name if self.common in self.before else "std"
            lines.insert(first, (f"use Rattle.{source}.proofs.Common.{{{', '.join(names)}}}", None))
        self.places.update(((path, at), owner) for at, (_, owner) in enumerate(lines, 1) if owner)
        write(path, "\n".join(line for line, _ in lines) + "\n")

    def pass_on(self, names: list[str]) -> None:
        """Common passes on these names too."""
        text = self.before.get(self.common)
        if text is None or not names:
            return
        names = [name for name in names if name not in imported(text)]
        found = re.search(r"^pub use Rattle\.std\.proofs\.Common\.\{.*\}$", text, re.M)
        if found:
            write(self.common, text.replace(found[0], with_names(found[0], names)))
        elif names:
            write(self.common, text.rstrip("\n") + f"\npub use Rattle.std.proofs.Common.{{{', '.join(names)}}}\n")

    def copies(self, path: str, block: Block) -> list[tuple[Attempt, list[Equation]]]:
        """The forms of a lemma, each with all equations."""
        result: list[tuple[Attempt, list[Equation]]] = []
        known = imported(self.before[path]) | {other.name for other in self.blocks[path] if other.name}
        scope = Scope(block.name, known, self.definitions)
        for catch in catches_of(block, self.constructors):
            attempt = Attempt(path, block.name, -1, catch.label)
            self.catches[attempt] = catch
            result.append((attempt, [it for at, it in enumerate(block.equations) if at not in catch.equations] + [[catch.line]]))
        for at, equation in enumerate(block.equations):
            for form in forms_of(equation, scope):
                attempt = Attempt(path, block.name, at, form.label)
                self.forms[attempt] = form
                result.append((attempt, [*block.equations[:at], form.make(equation) or equation, *block.equations[at + 1 :]]))
        return result

    def write_trial(self) -> int:
        """Writes all copies; tells how many."""
        number = 0
        for path in self.paths:
            lines: list[Line] = []
            for block in self.blocks[path]:
                lines += [("", None)] * bool(lines) + [(line, None) for line in block.lines]
                for attempt, equations in self.copies(path, block) if block.can_change else []:
                    first = re.sub(r"^(\s*)pub ", r"\1", block.signature[0])
                    copy = [first, *block.signature[1:], *(line for equation in equations for line in equation)]
                    lines.append(("", None))
                    lines += [(re.sub(word(block.name), f"zz{number}-{block.name}", line), attempt) for line in copy]
                    number += 1
            self.save(path, lines, ["arith", "rules"])
        self.pass_on(["arith", "rules"])
        return number

    def only(self) -> list[str]:
        """The function whose check reads all files: its answers import a lemma of each."""
        answers = [path for path in self.before if path.endswith("/Answers.antt") and "+" not in path]
        if self.answers or not answers:
            return []
        target = min(answers, key=lambda path: len(self.before[path]))
        lines = []
        for at, path in enumerate(self.paths):
            public = sorted((block for block in self.blocks[path] if block.is_public), key=lambda block: block.indent)
            module = os.path.relpath(path, f"{self.folder}/proofs")[:-5].replace("/", ".")
            if public:
                lines.append(f"use Rattle.{self.name}.proofs.{module}.{{{public[0].name} as zzimport{at}}}")
        write(target, "\n".join(lines) + "\n" + self.before[target])
        return ["--only", "::".join([self.name, *os.path.relpath(target, f"{self.folder}/proofs").split("/")[:-1]])]

    def trial(self) -> set[Attempt]:
        """The forms that pass as copies."""
        try:
            print("forms:", self.write_trial(), "logs:", self.logs, flush=True)
            output = self.check("trial", *self.only())
        finally:
            self.restore()
        # The line of the crate itself: those of its libraries come before a check that stops at one of them.
        if not re.search(rf"^crate {self.name}: modules ", output, re.M):
            print(output[-1500:])
            return set()
        failed, unread = set(), set()
        for found in ERROR.finditer(output):
            path = f"{self.folder}/{found[1]}"
            attempt = self.places.get((path, int(found[2])))
            failed.update([attempt] if attempt else [])
            unread.update([path] if not attempt else [])
        for path in sorted(unread):
            print("left, as it wasn't read:", os.path.relpath(path, self.folder))
        return {it for it in [*self.forms, *self.catches] if it not in failed and it.path not in unread}

    def shortest(self, equation: Equation, able: list[Attempt]) -> Equation:
        """An equation by the best form of the whole body, or else by one form after another."""
        made = sorted(((it, self.forms[it].make(equation) or equation) for it in able), key=lambda pair: len(pair[1]))
        whole = [lines for it, lines in made if it.label.startswith("whole")]
        for it, _ in [] if whole else made:
            shorter = self.forms[it].make(equation)
            equation = shorter if shorter and len(shorter) < len(equation) else equation
        return whole[0] if whole else equation

    def changed(self, path: str, block: Block, passed: set[Attempt]) -> list[str]:
        """A lemma with the forms that passed."""
        mine = [it for it in [*self.forms, *self.catches] if it in passed and it[:2] == (path, block.name)]
        if not mine or not block.can_change:
            return block.lines
        catch = max((self.catches[it] for it in mine if it in self.catches), key=lambda it: len(it.equations), default=None)
        lines = [*block.head, *block.signature]
        for at, equation in enumerate(block.equations):
            if catch is None or at not in catch.equations:
                lines += self.shortest(equation, [it for it in mine if it.equation == at])
        return lines + ([catch.line] if catch else [])

    def apply(self, passed: set[Attempt]) -> None:
        """Puts in the forms that passed."""
        self.restore()
        self.places.clear()
        all_names: list[str] = []
        for path in sorted({it.path for it in passed}):
            lines: list[Line] = []
            new: list[str] = []
            for block in self.blocks[path]:
                made = self.changed(path, block, passed)
                new += [line for line in made if line not in block.lines]
                lines += [("", None)] * bool(lines) + [(line, Attempt(path, block.name, -1, "")) for line in made]
            self.save(path, lines, needed(new))
            all_names += needed(new)
        self.pass_on(sorted(set(all_names)))

    def without_failed(self, passed: set[Attempt], output: str) -> set[Attempt]:
        """What is left of the forms after the errors of a check."""
        names: set[tuple[str, str]] = set()
        for found in ERROR.finditer(output):
            path = f"{self.folder}/{found[1]}"
            owner = self.places.get((path, int(found[2])))
            names |= {(path, found[3] or ""), (path, owner.lemma if owner else "")}
        return {it for it in passed if it[:2] not in names}

    def settle(self, passed: set[Attempt]) -> bool:
        """Applies, checks and takes back, until the crate is proved; else all files are as they were."""
        for number in range(ROUNDS):
            if not passed:
                break
            self.apply(passed)
            output = self.check(f"check_{number}")
            if re.search(r"^logic=proved", output, re.M):
                return True
            left = self.without_failed(passed, output)
            print("check", number + 1, "fails; forms taken back:", len(passed) - len(left), flush=True)
            passed = left if len(left) < len(passed) else set()
        return False


def main() -> int:
    """Tries, puts in, and says what became shorter."""
    parser = argparse.ArgumentParser(description=__doc__.splitlines()[0])
    parser.add_argument("crate")
    parser.add_argument("checkout", nargs="?", default=".")
    parser.add_argument("--files", default="", metavar="REGEX", help="only files whose path has this pattern")
    parser.add_argument("--answers", action="store_true", help="also the answers; the trial is a check of the whole crate then")
    parser.add_argument("--trial-only", action="store_true", help="only say which forms pass")
    given = parser.parse_args()
    crate = Crate(given.checkout, given.crate, given.files, given.answers)
    passed, settled = crate.trial(), False
    for it in sorted(passed):
        print("  passes:", os.path.relpath(it.path, crate.folder), it.lemma, it.equation, it.label)
    if given.trial_only:
        return 0
    try:
        settled = crate.settle(passed)
    finally:
        if not settled:
            crate.restore()
    after = sum(read(path).count("\n") for path in crate.before)
    print("lines", sum(text.count("\n") for text in crate.before.values()), "->", after, "proved" if settled else "nothing changed")
    return 0 if settled or not passed else 1


if __name__ == "__main__":
    sys.exit(main())
