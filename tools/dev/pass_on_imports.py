#!/usr/bin/env python3
"""Imports that several files of a crate repeat are passed on from one file of the crate, and the files import from that one.

    python3 tools/dev/pass_on_imports.py CHECKOUT [CRATE ..]

`specs/Words.antt` passes on words of other crates to the definitions, but not those of std. `proofs/Common.antt` passes on what proofs cite of
other crates and of the crate's own definitions, and `proofs/Lemmas.antt` the crate's lemmas to its answers. A file is left alone if nothing would
be gained, if it renames a name, or if it imports an unfoldable definition. The first origin of a name keeps it. A file that the passing one needs
is left too, and listed.
"""

import argparse
import collections
import glob
import os
import re
import subprocess
import sys
from dataclasses import dataclass, field
from typing import Callable, Iterator, NamedTuple

import toolchain

USE = re.compile(r"^(pub )?use (Rattle\.[\w.+\-]+?)\.\{(.*)\}$")
ANY_USE = re.compile(r"^\s*(?:pub )?use (Rattle\.[\w.+\-]+)")
MOD = re.compile(r"^(pub )?mod ")
PUBLIC = re.compile(r"^(?:abbrev |unfoldable )?pub (?:data |record )?(\S+)")
NO_LEMMAS = {"Answers", "Invariants", "Given", "Goals", "Proof"}
NO_WORDS = {"text_key"}  # crates whose definitions keep their own imports
LEAST_GAIN = 2

WORDS = "-- The words of other crates that the definitions say, passed on from one place."
COMMON = "-- What the proofs of this crate cite of other crates, and its own definitions, passed on from one place."
LEMMAS = "-- The lemmas that answers cite, passed on from one place."


class Import(NamedTuple):
    """A line of a file that could go."""

    line: int
    module: str
    names: list[str]


Movable = dict[str, list[Import]]


@dataclass
class Hub:
    """A file that passes on imports."""

    path: str
    comment: str
    library: str
    accepts: Callable[[str], bool]
    origins: dict[str, tuple[str, str]] = field(default_factory=dict)  # of a name that it passes on: the module, and the text of the import
    modules: set[str] = field(default_factory=set)
    own: set[str] = field(default_factory=set)

    @property
    def module(self) -> str:
        """Its name in an import."""
        return module_of(self.path)


def module_of(path: str) -> str:
    """A file's name in an import."""
    return "Rattle." + path[:-5].replace("/", ".")


def listed(text: str) -> list[str]:
    """The names of an import."""
    return [name.strip() for name in text.split(",") if name.strip()]


def read(path: str) -> list[str]:
    """A file's lines."""
    with open(path, encoding="utf-8") as file:
        return file.read().split("\n")


def write(path: str, lines: list[str]) -> None:
    """Writes a file, which may be new."""
    os.makedirs(os.path.dirname(path), exist_ok=True)
    with open(path, "w", encoding="utf-8") as file:
        file.write("\n".join(lines))


def unfolded(lines: list[str]) -> set[str]:
    """What the proofs of a file unfold: it imports these definitions from their own files."""
    return {name for line in lines if line.lstrip().startswith("unfolding ") for name in re.split(r"[,\s]+", line.strip())[1:]}


def unfoldable_names(standard: str) -> set[str]:
    """The unfoldable definitions of std and of this checkout: a proof imports them from their own file."""
    found: set[str] = set()
    for root in (standard, "."):
        grep = ["grep", "-rhoE", r"^ *unfoldable (pub )?\S+", root, "--include=*.antt"]
        lines = subprocess.run(grep, capture_output=True, text=True).stdout.split("\n")
        found |= {line.split()[-1] for line in lines if line.strip()}
    return found


class Texts:
    """All definitions and proofs, as they will be written. The folder is that of std."""

    def __init__(self, standard: str) -> None:
        paths = glob.glob("*/specs/**/*.antt", recursive=True) + glob.glob("*/proofs/**/*.antt", recursive=True)
        self.files = {path: read(path) for path in paths}
        self.modules = {module_of(path): path for path in paths}
        self.unfoldable = unfoldable_names(standard)

    def total(self) -> int:
        """The number of lines."""
        return sum(len(lines) - 1 for lines in self.files.values())

    def needs(self, path: str) -> Iterator[str]:
        """The files that a file imports."""
        for found in filter(None, map(ANY_USE.match, self.files[path])):
            module = found[1].rstrip(".")
            while module and module not in self.modules and "." in module:
                module = module.rsplit(".", 1)[0]
            if module in self.modules:
                yield self.modules[module]

    def reach(self, starts: list[str]) -> set[str]:
        """The files that these need, and these."""
        seen: set[str] = set()
        waiting = list(starts)
        while waiting:
            path = waiting.pop()
            if path not in seen and path in self.files:
                seen.add(path)
                waiting += self.needs(path)
        return seen

    def learn(self, hub: Hub) -> None:
        """What a hub passes on and defines already."""
        for line in self.files.get(hub.path, []):
            use, public = USE.match(line), PUBLIC.match(line)
            if use and use[1]:
                hub.modules.add(use[2])
                hub.origins.update((item.split(" as ")[-1], (use[2], item)) for item in listed(use[3]))
            if public:
                hub.own.add(public[1])

    def movable(self, hub: Hub, users: list[str]) -> Movable:
        """The imports that the hub could pass on, of names that have one origin."""
        able: Movable = {}
        for path in users:
            fixed = self.unfoldable | hub.own | unfolded(self.files[path])
            for index, line in enumerate(self.files[path]):
                use = USE.match(line)
                if not use or use[1] or use[2] == hub.module or not hub.accepts(use[2]):
                    continue
                names = listed(use[3])
                if not any(" as " in name or name in fixed for name in names):
                    able.setdefault(path, []).append(Import(index, use[2], names))
        return {path: [it for it in found if self.is_first(it, hub, able)] for path, found in able.items()}

    def is_first(self, one: Import, hub: Hub, able: Movable) -> bool:
        """Whether each name of the import comes from the module that the hub has it from, or would."""
        origins = self.origins(hub, able)
        return all(origins[name] == one.module and (name not in hub.origins or hub.origins[name][1] == name) for name in one.names)

    def origins(self, hub: Hub, able: Movable) -> dict[str, str]:
        """The module of each name: the hub's, or the one that most files have it from."""
        count = collections.Counter((name, it.module) for found in able.values() for it in found for name in it.names)
        origins = {name: module for name, (module, _) in hub.origins.items()}
        for (name, module), _ in count.most_common():
            origins.setdefault(name, module)
        return origins

    def has(self, path: str, hub: Hub) -> bool:
        """Whether a file imports the hub."""
        return any(use[2] == hub.module for use in filter(None, map(USE.match, self.files[path])))

    def worth(self, able: Movable, hub: Hub) -> Movable:
        """Only modules that two files import, or that the hub has, and only files that become shorter."""
        while True:
            count = collections.Counter(module for found in able.values() for module in {it.module for it in found})
            kept = {path: [it for it in found if count[it.module] > 1 or it.module in hub.modules] for path, found in able.items()}
            kept = {path: found for path, found in kept.items() if len(found) > 1 or found and self.has(path, hub)}
            if kept == able:
                return able
            able = kept

    def gain(self, able: Movable, hub: Hub) -> int:
        """How many lines go."""
        new = {it.module for found in able.values() for it in found} - hub.modules
        gain = sum(len(found) - (0 if self.has(path, hub) else 1) for path, found in able.items()) - len(new)
        return gain if hub.path in self.files else gain - 2

    def consolidate(self, hub: Hub, users: list[str]) -> int:
        """Moves imports of the users to the hub, if this makes the crate shorter. Tells by how much."""
        self.learn(hub)
        while True:
            able = self.worth(self.movable(hub, users), hub)
            gain = self.gain(able, hub)
            if gain < LEAST_GAIN:
                return 0
            modules = {it.module for found in able.values() for it in found}
            far = self.reach([self.modules[module] for module in modules if module in self.modules] + [hub.path])
            bad = [path for path in able if path in far]
            if not bad:
                break
            print("  cycle, left:", hub.path.split("/")[0], hub.path, len(bad), bad[:4])
            users = [path for path in users if path not in bad]
        added: dict[str, list[str]] = {}
        for path, found in sorted(able.items()):
            for it in found:
                known = added.setdefault(it.module, []) if any(name not in hub.origins for name in it.names) else []
                known += [name for name in it.names if name not in hub.origins and name not in known]
            self.import_from(hub, path, found)
        self.pass_on(hub, added)
        return gain

    def import_from(self, hub: Hub, path: str, found: list[Import]) -> None:
        """Rewrites the imports of a file."""
        names = list(dict.fromkeys(name for it in found for name in it.names))
        gone, done, has_hub = {it.line for it in found}, False, self.has(path, hub)
        lines: list[str] = []
        for index, line in enumerate(self.files[path]):
            use = USE.match(line)
            if use and not use[1] and use[2] == hub.module:
                have = listed(use[3])
                lines.append(f"use {hub.module}.{{{', '.join(have + [name for name in names if name not in have])}}}")
                done = True
            elif index not in gone:
                lines.append(line)
            elif not done and not has_hub:
                lines.append(f"use {hub.module}.{{{', '.join(names)}}}")
                done = True
        self.files[path] = lines

    def pass_on(self, hub: Hub, added: dict[str, list[str]]) -> None:
        """Adds names to the hub, which may be new."""
        if hub.path not in self.files:
            self.begin(hub)
        lines = self.files[hub.path]
        for module, names in added.items():
            uses = [(index, use) for index, use in enumerate(map(USE.match, lines)) if use]
            same = [(index, use) for index, use in uses if use[1] and use[2] == module]
            if same:
                index, use = same[0]
                lines[index] = f"pub use {module}.{{{', '.join(listed(use[3]) + names)}}}"
            else:
                last = max((index for index, _ in uses), default=0)
                lines.insert(last + 1, f"pub use {module}.{{{', '.join(names)}}}")

    def begin(self, hub: Hub) -> None:
        """A new hub, which its library lists."""
        self.files[hub.path] = [hub.comment, ""]
        self.modules[hub.module] = hub.path
        lines = self.files[hub.library]
        places = [index for index, line in enumerate(lines) if MOD.match(line)]
        name = os.path.basename(hub.path)[:-5]
        public = "pub " if "/specs/" in hub.library else ""
        lines.insert(max(places) + 1 if name == "Lemmas" else min(places), f"{public}mod {name}")

    def users(self, crate: str, part: str, hub: str) -> list[str]:
        """The files of a part of a crate but for its library and this hub."""
        mine = [path for path in self.files if path.startswith(f"{crate}/") and f"/{part}/" in path]
        return [path for path in mine if not path.endswith(("/Lib.antt", f"{part}/{hub}.antt"))]

    def in_crate(self, crate: str) -> Iterator[tuple[str, int]]:
        """Makes the three hubs of a crate; tells how many lines go with each."""

        def is_foreign(module: str) -> bool:
            return module.split(".")[1] != crate

        def is_word(module: str) -> bool:
            # Definitions import the words of std from std itself, which the gate asks for.
            return is_foreign(module) and module.split(".")[1] != "std"

        def is_cited(module: str) -> bool:
            return is_foreign(module) or module.split(".")[2] == "specs"

        def is_lemma(module: str) -> bool:
            words = module.split(".")
            return words[1] == crate and words[2] == "proofs" and words[-1] not in NO_LEMMAS and module in self.modules

        specs = self.users(crate, "specs", "Words")
        if specs and crate not in NO_WORDS:
            yield "specs", self.consolidate(Hub(f"{crate}/specs/Words.antt", WORDS, f"{crate}/specs/Lib.antt", is_word), specs)
        proofs = self.users(crate, "proofs", "Common")
        if proofs:
            library = f"{crate}/proofs/Lib.antt"
            yield "common", self.consolidate(Hub(f"{crate}/proofs/Common.antt", COMMON, library, is_cited), proofs)
            answers = [path for path in proofs if path.endswith("/Answers.antt")]
            yield "lemmas", self.consolidate(Hub(f"{crate}/proofs/Lemmas.antt", LEMMAS, library, is_lemma), answers)


def main() -> int:
    """Rewrites the crates, and says how many lines went."""
    parser = argparse.ArgumentParser(description=__doc__.splitlines()[0])
    parser.add_argument("checkout")
    parser.add_argument("crates", nargs="*", metavar="crate", help="all crates if none is named")
    toolchain.add_word(parser)
    given = parser.parse_args()
    standard = f"{toolchain.folder_of(parser, given.rt)}/rattle/std"
    os.chdir(f"{given.checkout}/crates")
    texts = Texts(standard)
    print("unfoldable", len(texts.unfoldable), sorted(texts.unfoldable)[:30])
    before, gains = texts.total(), collections.Counter[str]()
    for crate in sorted({path.split("/")[0] for path in texts.files}):
        if not given.crates or crate in given.crates:
            for part, gain in texts.in_crate(crate):
                gains[part] += gain
    print(gains, before, texts.total())
    for path, lines in texts.files.items():
        if not os.path.exists(path) or read(path) != lines:
            write(path, lines)
    return 0


if __name__ == "__main__":
    sys.exit(main())
