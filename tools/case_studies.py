#!/usr/bin/env python3
"""Generates the tables, the plots and the drawings of docs/case-studies.md.

    python3 tools/case_studies.py              writes the pictures into docs/pictures, prints the tables, and last the times
    python3 tools/case_studies.py --preparations   prints the table of preparations alone
    python3 tools/case_studies.py --check      compares the tables with the page and the pictures with docs/pictures; status 1 if some differ

It runs after a first call of ./tlut has built the program, and needs Yosys, ABC and Graphviz. All but the times is the same in each
run. The netlist of `fir8` is made by Yosys, and the sizes of ABC are ABC's, so other versions of the two may have other numbers; a
drawing is compared only if Graphviz has the version that created the stored one.
"""

from __future__ import annotations

import argparse
import os
import resource
import sys
import tempfile
from dataclasses import dataclass
from typing import Callable, Iterator, Optional

TOP = os.path.dirname(os.path.dirname(os.path.abspath(__file__)))
sys.path.insert(0, TOP)

from tlutflow import tools
from tlutflow.abc_form import abc_text
from tlutflow.bus import Bus
from tlutflow.buses import buses_of
from tlutflow.changes import EXHAUSTIVE, Random, changes_of, rewritten, set_line, spread
from tlutflow.faults import Fault
from tlutflow.mappings import Sizes, sizes_by_abc, sizes_by_tlut
from tlutflow.netlist import read_library
from tlutflow.parameters import read_parameters
from tlutflow.preparing.trials import Task, prepare
from tlutflow.reports.plots import RATES, plot, ticks_of
from tlutflow.text import read_text, write_text
from tlutflow.verilog.recipe import PREPARATION

PAGE = f"{TOP}/docs/case-studies.md"
PICTURES = f"{TOP}/docs/pictures"
KS = (4, 6)
# Changes and re-maps that are timed, how often a small design is mapped again with each values, and the calls of which the least counts.
WALK, REMAPS, AGAIN, TRIES = 10000, 20, 20, 5


@dataclass(frozen=True)
class Drawing:
    """A picture by `flow draw`: its name, K, and the nets whose cones it has, none for the whole circuit."""

    name: str
    k: int
    cone: tuple[str, ...] = ()


@dataclass(frozen=True)
class Study:
    """A design: its files, what its parameters are called, what a change of a value and one of a bit are called, and its drawings."""

    name: str
    netlist: str
    parameters: str
    title: str
    of_value: str
    of_bit: str
    drawings: tuple[Drawing, ...]


def example(name: str, title: str, of_value: str, of_bit: str, *drawings: Drawing) -> Study:
    """A study of a stored netlist."""
    folder = f"{TOP}/examples/{name}/{name}"
    return Study(name, f"{folder}.blif", f"{folder}.par", title, of_value, of_bit, drawings)


def studies(room: str, names: list[str]) -> list[Study]:
    """The studies of some names, or all; the netlists of the larger ones are made in a folder."""
    cones = Drawing("fir", 6, ("y[3]",)), Drawing("fir_cone", 4, ("y[1]",))
    found = [
        example("fir", "coefficients", "a coefficient gets another value", "a bit of one flips", *cones),
        example("matcher", "pattern and mask", "the pattern or the mask gets another value", "a bit of one flips", Drawing("matcher", 4)),
        example("coder", "key", "the key gets another value", "a bit of it flips", Drawing("coder", 4)),
    ]
    for top, drawings in (("fir8", (Drawing("fir8", 6, ("y[1]",)),)), ("fir8_sums", ())):
        if names and top not in names:
            continue
        ran = tools.run([f"{TOP}/flow", "verilog", "examples/fir8/fir8.v", "--top", top, "--abc", PREPARATION, "--out", room], TOP)
        if ran.returncode:
            raise Fault(ran.stderr.strip())
        netlist, parameters = (f"{room}/{top}{end}" for end in (".blif", ".par"))
        found.append(Study(top, netlist, parameters, "coefficients", "a coefficient gets another value", "a bit of one flips", drawings))
    return [study for study in found if not names or study.name in names]


def must(words: list[str], folder: Optional[str] = None) -> str:
    """What a command prints that must end well."""
    ran = tools.run(words, folder)
    if ran.returncode:
        raise Fault(f"{' '.join(words)}: {ran.stderr.strip()}")
    return ran.stdout


class Mapped:
    """A study mapped at some K: the files of its template and its pack."""

    def __init__(self, study: Study, k: int, room: str) -> None:
        self.study, self.k, self.room = study, k, room
        self.template, self.pack = (f"{room}/{study.name}_{k}{end}" for end in (".t.blif", ".ppc"))
        must([f"{TOP}/tlut", "map", str(k), study.netlist, study.parameters, self.template, self.pack])
        self.nets = list(read_parameters(study.parameters))
        self.buses = list(buses_of(self.nets).values())

    @property
    def bits(self) -> int:
        """How many configuration bits there are."""
        write_text(f"{self.room}/empty.scr", "")
        return int(must([f"{TOP}/tlut", "bits", self.pack, f"{self.room}/empty.scr"]).split()[1])

    def rewritten(self, buses: list[Bus]) -> list[int]:
        """How many bits each change of these buses rewrites."""
        return rewritten(f"{TOP}/tlut", self.pack, changes_of(self.nets, buses), self.room)

    def draw(self, drawing: Drawing, folder: str) -> str:
        """Makes a picture, and returns its file."""
        cone = [word for net in drawing.cone for word in ("--cone", net)]
        must([f"{TOP}/flow", "draw", self.template, self.pack, *cone, "--out", f"{folder}/{drawing.name}.svg"])
        return f"{drawing.name}.svg"


def table(rows: list[list[str]]) -> str:
    """A table in markdown."""
    head, *others = ["| " + " | ".join(row) + " |\n" for row in rows]
    return "".join([head, "|" + "---|" * len(rows[0]) + "\n", *others])


def cells(found: list[Sizes]) -> list[str]:
    """The numbers of sizes, one after another."""
    return [f"{int(cell):,}" if cell.isdigit() else cell for it in found for cell in it.cells()]


def size_rows(study: Study, room: str) -> list[tuple[str, Callable[[int], Sizes]]]:
    """What is mapped how: a title, and the sizes for each K."""
    program, abc, library = f"{TOP}/tlut", tools.need(tools.ABC, "the sizes beside ours"), read_library(study.netlist)
    write_text(f"{room}/none.par", "")
    write_text(f"{room}/inputs.blif", abc_text(library, {}))
    write_text(f"{room}/constants.blif", abc_text(library, read_parameters(study.parameters)))
    return [
        (f"`tlut`, {study.title} as parameters", lambda k: sizes_by_tlut(program, k, study.netlist, study.parameters, room)),
        (
            f"`tlut-compact`, {study.title} as parameters",
            lambda k: sizes_by_tlut(program, k, study.netlist, study.parameters, room, "--compact"),
        ),
        (f"`tlut`, {study.title} as inputs", lambda k: sizes_by_tlut(program, k, study.netlist, f"{room}/none.par", room)),
        (f"ABC `if`, {study.title} as inputs", lambda k: sizes_by_abc(abc, k, "inputs.blif", "", room)),
        (f"ABC `if -a`, {study.title} as inputs", lambda k: sizes_by_abc(abc, k, "inputs.blif", " -a", room)),
        ("`tlut`, the listed values as constants", lambda k: sizes_by_tlut(program, k, f"{room}/constants.blif", f"{room}/none.par", room)),
        ("ABC `if`, the listed values as constants", lambda k: sizes_by_abc(abc, k, "constants.blif", "", room)),
    ]


def size_table(study: Study, room: str) -> str:
    """The sizes at each K, by this mapper and by ABC."""
    rows = [[study.name, *(f"K {k}: {word}" if word == "LUTs" else word for k in KS for word in ("LUTs", "depth", "bits"))]]
    rows += [[title, *cells([sizes(k) for k in KS])] for title, sizes in size_rows(study, room)]
    return table(rows)


def change_table(study: Study, mapped: dict[int, Mapped]) -> tuple[str, list[int]]:
    """How many bits changes rewrite at each K, and the counts of those of a value at the first K."""
    rows = [["Change", "K", "changes", "least", "median", "greatest", "of bits"]]
    kept: list[int] = []
    for k, it in mapped.items():
        for title, buses in ((study.of_bit, [Bus(net, (net,)) for net in it.nets]), (study.of_value, it.buses)):
            counts = it.rewritten(buses)
            rows.append([title, str(k), f"{len(counts):,}", *(f"{count:,}" for count in (*spread(counts), it.bits))])
            kept = counts if k == KS[0] else kept
    return table(rows), kept


def tick_table(counts: list[int], bits: int) -> tuple[str, dict[int, tuple[int, int, int]]]:
    """How many ticks changes take at each rate, and those of all bits."""
    ticks = ticks_of(counts)
    rows = [["Ticks at RATE", *map(str, RATES)]]
    rows += [[title, *(str(ticks[rate][place]) for rate in RATES)] for place, title in enumerate(("least", "median", "greatest"))]
    return table([*rows, ["all bits", *(f"{-(-bits // rate):,}" for rate in RATES)]]), ticks


def figures(study: Study, room: str, folder: str) -> tuple[list[str], list[str]]:
    """Makes the pictures of a study, and returns its tables and the pictures' names."""
    tables, names = [size_table(study, room)], []
    if study.drawings:
        mapped = {k: Mapped(study, k, room) for k in KS}
        changed, counts = change_table(study, mapped)
        ticked, ticks = tick_table(counts, mapped[KS[0]].bits)
        tables += [changed, ticked]
        names = [mapped[it.k].draw(it, folder) for it in study.drawings]
        names.append(f"{study.name}_changes.svg")
        write_text(f"{folder}/{names[-1]}", plot(f"{study.name}, K {KS[0]}: {study.of_value}", counts, spread(counts)[1], ticks))
    return tables, names


def processor_time() -> float:
    """The processor time of all processes that were started and have ended, in seconds."""
    used = resource.getrusage(resource.RUSAGE_CHILDREN)
    return used.ru_utime + used.ru_stime


def seconds(words: list[str], folder: str) -> float:
    """How much processor time a command takes, the least of some calls."""
    took = []
    for _ in range(TRIES):
        before = processor_time()
        must(words, folder)
        took.append(processor_time() - before)
    return min(took)


def walk(nets: list[str], buses: list[Bus], many: int) -> list[dict[str, int]]:
    """Drawn changes of a bus's value, one after another: what each one sets."""
    random, steps, values = Random(2), [], {net: 0 for net in nets}
    for _ in range(many):
        bus = buses[random.below(len(buses))]
        steps.append(bus.digits((bus.number(values) + 1 + random.below((1 << bus.width) - 1)) % (1 << bus.width)))
        values.update(steps[-1])
    return steps


def change_time(it: Mapped) -> float:
    """Seconds that `tlut bits` takes for a change, reading and printing with it; what it takes for none is taken off."""
    write_text(f"{it.room}/walk.scr", "".join(map(set_line, walk(it.nets, it.buses, WALK))))
    write_text(f"{it.room}/empty.scr", "")
    some, none = (seconds([f"{TOP}/crates/tlut/out/tlut", "bits", it.pack, f"{it.room}/{name}.scr"], it.room) for name in ("walk", "empty"))
    return (some - none) / WALK


def remap_time(it: Mapped) -> float:
    """Seconds that ABC takes to read the netlist with constants and to map it; what it takes to start is taken off, and it writes nothing."""
    abc, library, random, commands = tools.need(tools.ABC, "times"), read_library(it.study.netlist), Random(3), []
    for place in range(REMAPS):
        write_text(f"{it.room}/remap{place}.blif", abc_text(library, {net: random.below(2) for net in it.nets}))
        commands.append(f"read_blif remap{place}.blif; strash; if -K {it.k}")
    commands *= AGAIN if len(it.nets) <= EXHAUSTIVE else 1
    some, none = (seconds([abc, "-q", "; ".join(words)], it.room) for words in (commands, ["version"]))
    return (some - none) / len(commands)


def time_table(found: list[Study], room: str) -> str:
    """How long a change takes beside a re-map, at the first K."""
    rows = [["Design", "a change by `tlut bits`", "a re-map by ABC", "ratio"]]
    for study in found:
        if study.drawings:
            it = Mapped(study, KS[0], room)
            ours, theirs = change_time(it), remap_time(it)
            rows.append([study.name, f"{1e6 * ours:.1f} µs", f"{1e3 * theirs:.2f} ms", f"{theirs / ours:,.0f}"])
    return table(rows)


def generator_of(picture: str) -> list[str]:
    """The lines of a picture that name the program that made it."""
    return [line for line in picture.splitlines() if "Generated by" in line]


def preparation_table(found: list[Study], room: str, jobs: int) -> str:
    """What the best preparation has beside the netlist as it is, and beside the best that ABC has on the same preparations."""
    rows = [["Design", "K", "as it is: LUTs", "depth", "best preparation: LUTs", "depth", "by", "ABC's best: LUTs", "depth", "by"]]
    for study in found:
        for k in KS:
            tried = prepare(Task(study.netlist, study.parameters, k, jobs=jobs, beside=True), f"{room}/{study.name}_{k}")
            # In the order of the list, so that of several that are as good the same one is named each time.
            compact = [it for trial in tried.trials for it in trial.results if it.rule == "compact"]
            first, best, abc = compact[0], min(compact, key=lambda it: it.key("depth")), tried.best_by_abc()
            assert abc
            row = [study.name, str(k), f"{first.tables:,}", str(first.depth), f"{best.tables:,}", str(best.depth), best.name]
            rows.append([*row, f"{abc[2].tables:,}", str(abc[2].depth), f"{abc[0]}, `{abc[1]}`"])
            print(" | ".join(rows[-1]), file=sys.stderr, flush=True)
    return table(rows)


def differences(tables: list[str], names: list[str], folder: str) -> Iterator[str]:
    """What the page and the pictures that are there don't have."""
    page = read_text(PAGE)
    yield from (f"{PAGE} has no such table:\n{it}" for it in tables if it not in page)
    for name in names:
        kept, made = (read_text(f"{at}/{name}") if os.path.exists(f"{at}/{name}") else "" for at in (PICTURES, folder))
        if not kept or (generator_of(kept) == generator_of(made) and kept != made):
            yield f"{PICTURES}/{name} isn't the picture that is made now"


def words() -> argparse.Namespace:
    """The command-line arguments."""
    parser = argparse.ArgumentParser(description=__doc__, formatter_class=argparse.RawDescriptionHelpFormatter)
    parser.add_argument("--check", action="store_true", help="write nothing, take no times, and compare the rest with what is there")
    parser.add_argument("--preparations", action="store_true", help="print the table of preparations alone, which takes minutes")
    parser.add_argument("--design", action="append", default=[], help="with --preparations: of this design alone (repeat it)")
    parser.add_argument("-j", dest="jobs", type=int, default=0, help="with --preparations: how many run at a time")
    parser.add_argument("--no-times", action="store_true", help="leave the times out")
    return parser.parse_args()


def run(given: argparse.Namespace, room: str) -> int:
    if given.preparations:
        print(preparation_table(studies(room, given.design), room, given.jobs), end="")
        return 0
    folder = room if given.check else PICTURES
    os.makedirs(folder, exist_ok=True)
    found = studies(room, [])
    made = {study.name: figures(study, room, folder) for study in found}
    tables = [it for some, _ in made.values() for it in some]
    if given.check:
        told = list(differences(tables, [name for _, names in made.values() for name in names], folder))
        print("\n".join([*told, f"{len(tables)} tables and their pictures: {f'{len(told)} DIFFER' if told else 'all are as the page has them'}"]))
        return 1 if told else 0
    print("\n".join(tables))
    if not given.no_times:
        print(time_table(found, room), end="")
    return 0


def main() -> int:
    given = words()
    try:
        tools.tlut(f"{TOP}/tlut")
        with tempfile.TemporaryDirectory(prefix="case-studies-") as room:
            return run(given, room)
    except Fault as fault:
        print(f"case_studies: {fault}", file=sys.stderr)
        return 1


if __name__ == "__main__":
    sys.exit(main())
