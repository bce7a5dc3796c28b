"""Trying preparations: each one is made, compared with its source and mapped by both rules, several at a time."""

from __future__ import annotations

import os
import shutil
import time
from dataclasses import dataclass, field, replace
from itertools import product
from typing import Callable, Optional

from tlutflow import tools
from tlutflow.abc_form import model_lines
from tlutflow.changes import median_rewritten
from tlutflow.circuit import read_circuit
from tlutflow.devices.families import Family
from tlutflow.faults import Fault
from tlutflow.mappings import MAPPED, Sizes, sizes_by_abc, sizes_by_tlut
from tlutflow.netlist import Model
from tlutflow.parameters import read_parameters
from tlutflow.preparations import PREPARATIONS, Preparation
from tlutflow.preparing.combinational import interface_difference, logic_of, logic_text, model_text, netlist_text
from tlutflow.preparing.comparison import WHOLE, Comparer
from tlutflow.preparing.flat import read_flat
from tlutflow.preparing.graphs import Bench
from tlutflow.preparing.part_trials import PartsBench
from tlutflow.preparing.parts import PART_SIZE, divided, size_of
from tlutflow.preparing.pieces import Job, Jobs, Piece
from tlutflow.preparing.starts import Start, SumStart, starts_with
from tlutflow.text import read_text, write_text

# What is looked for first, then next where that is the same, by the names of a result's fields.
AIMS = {
    "depth": ("depth", "tables", "bits"),
    "luts": ("tables", "depth", "bits"),
    "bits": ("bits", "depth", "tables"),
    "changes": ("changed", "depth", "tables"),
    "sites": ("sites", "depth", "tables", "bits"),
}
# What an aim was called before.
OLD_AIMS = {"tables": "luts"}
RULES = {"tlut": (), "compact": ("--compact",)}
RULE_NAMES = {"tlut": "tlut", "compact": "tlut --compact"}
AS_READ = "as read"
# What a program with one rule alone has in the place of the sizes by another.
NO_RULE = "-"
# Changes that are drawn for the median.
CHANGES = 500
# About how long checking and mapping a netlist takes, as `cost` of a preparation.
MEASURING = 1


@dataclass(frozen=True)
class Task:
    """What is looked for: the netlist with its parameters, K, the aim, limits, and the programs."""

    netlist: str
    parameters: str
    k: int
    aim: str = "depth"
    seconds: float = 60
    jobs: int = 0
    rounds: int = 1
    beside: bool = False
    preparations: list[Preparation] = field(default_factory=lambda: list(PREPARATIONS))
    # Further netlists of the same circuit that are to be tried as they are, by their names.
    ready: dict[str, str] = field(default_factory=dict)
    program: Optional[str] = None
    # The rules that are tried, the family of devices whose count is taken, and the values of K instead of `k`.
    rules: tuple[str, ...] = tuple(RULES)
    family: Optional[Family] = None
    ks: tuple[int, ...] = ()
    # What the netlist is called in a fault, if its file is a temporary one.
    title: str = ""
    # Logic of more gates is prepared in parts of at most so many.
    part_size: int = PART_SIZE
    # The netlists of the design whose sums are tables.
    sums: tuple[SumStart, ...] = ()


@dataclass(frozen=True)
class Result:
    """A preparation mapped by a rule: its name, the rule, its sizes, the median of bits that a change rewrites (None where that wasn't
    looked at), the seconds that it took, its file, K, and what a device counts (None without a device)."""

    name: str
    rule: str
    tables: int
    depth: int
    bits: int
    changed: Optional[int]
    seconds: float
    file: str
    k: int = 0
    sites: Optional[int] = None

    def key(self, aim: str) -> tuple[int, ...]:
        """What is compared: lower is better."""
        return tuple(getattr(self, name) for name in AIMS[aim])

    def is_beaten_by(self, other: Result) -> bool:
        """Whether another one is nowhere worse and somewhere better, in LUTs or what the device counts, depth, bits and what a change
        rewrites."""
        mine, others = ([it.tables if it.sites is None else it.sites, it.depth, it.bits, it.changed or 0] for it in (self, other))
        return mine != others and all(theirs <= own for theirs, own in zip(others, mine))


@dataclass(frozen=True)
class Trial:
    """What came of a preparation: its results by rules, what ABC's mapper makes of it, or why it was left out. How it was compared with the
    source, which of its parts stay as they were read, and the netlist with tables that it started from."""

    name: str
    results: list[Result]
    by_abc: dict[str, Sizes]
    failure: str = ""
    compared: str = WHOLE
    parts_left_out: str = ""
    sums: Optional[SumStart] = None


@dataclass(frozen=True)
class Found:
    """All trials, the best result, and what was looked for."""

    trials: list[Trial]
    best: Result
    aim: str

    @property
    def results(self) -> list[Result]:
        """All results, the best first."""
        return sorted((it for trial in self.trials for it in trial.results), key=lambda it: (*it.key(self.aim), it.seconds))

    @property
    def front(self) -> list[Result]:
        """The results that none beats."""
        return [it for it in self.results if not any(it.is_beaten_by(other) for other in self.results)]

    @property
    def failures(self) -> list[Trial]:
        """The preparations that were left out."""
        return [it for it in self.trials if it.failure]

    @property
    def best_trial(self) -> Trial:
        """The trial of the best result."""
        return next(it for it in self.trials if it.name == self.best.name)

    def best_by_abc(self) -> Optional[tuple[str, str, Sizes]]:
        """The best that ABC's mapper makes of all preparations, with the preparation and ABC's words."""
        found = [(trial.name, words, it) for trial in self.trials for words, it in trial.by_abc.items() if not it.refusal]

        def key(it: tuple[str, str, Sizes]) -> tuple[int, int]:
            """What is compared. ABC has no tunable bits, so `changes` is as `depth` here."""
            sizes = it[2]
            return {"luts": (sizes.tables, sizes.depth), "bits": (sizes.bits, sizes.depth)}.get(self.aim, (sizes.depth, sizes.tables))

        return min(found, key=key) if found else None


@dataclass(frozen=True)
class Prepared:
    """A netlist that is to be tried, the seconds by the clock that ABC took for it, whether its parts were compared with the source, and
    which of them stay as they were read. With the netlist with tables that it comes from, it is compared with that one."""

    text: str
    seconds: float
    are_parts_equal: bool = False
    parts_left_out: str = ""
    sums: Optional[SumStart] = None


Report = Callable[[int, int, Trial, Optional[Result]], None]


def silent(done: int, many: int, trial: Trial, best: Optional[Result]) -> None:
    """Reports no progress."""
    del done, many, trial, best


class Workshop:
    """Where preparations are tried: the source's model and logic, the programs, and a folder."""

    def __init__(self, task: Task, folder: str):
        self.task, self.folder = task, folder
        self.model = read_flat(task.netlist)
        self.logic = logic_of(self.model)
        self.nets = list(read_parameters(task.parameters))
        self.program = tools.tlut(task.program)
        self.abc = tools.need(tools.ABC, "trying preparations")
        self.bench = Bench(self.abc, f"{folder}/graphs", task.seconds)
        self.comparer = Comparer(self.abc, task.seconds)

    def room(self, name: str) -> str:
        """The folder of a trial."""
        path = f"{self.folder}/{''.join(it if it.isalnum() or it in '+-_' else '_' for it in name)}"
        os.makedirs(path, exist_ok=True)
        return path

    def prepared(self, name: str, start: Start, preparation: Preparation) -> Job[Prepared]:
        """Makes the netlist of a preparation from some logic, of large logic part by part."""
        if not preparation.steps:
            text = yield Piece(("netlist", name), lambda: model_text(start.logic.model, start.logic.model.covers), MEASURING)
            return Prepared(text, 0, sums=start.sums)
        if size_of(start.logic.model.covers) > self.task.part_size:
            return (yield from self.prepared_by_parts(name, start, preparation))
        source = yield Piece(("source", start.key), lambda: self.bench.source(start.text()), preparation.cost)
        graph = yield from self.bench.prepared(source, preparation)
        text = yield Piece(("netlist", name), lambda: netlist_text(start.logic, self.bench.text(graph), preparation.name), MEASURING)
        return Prepared(text, graph.seconds, sums=start.sums)

    def prepared_by_parts(self, name: str, start: Start, preparation: Preparation) -> Job[Prepared]:
        """Makes the netlist of a preparation from the parts of some logic."""
        shop: PartsBench = yield Piece(("divided", start.key), lambda: self.parts_of(start), preparation.cost)
        made = []
        for place in range(len(shop.whole.parts)):
            made.append((yield from shop.prepared(place, preparation)))
        text = yield Piece(("netlist", name), lambda: shop.netlist(made), MEASURING)
        return Prepared(text, sum(it.seconds for it in made), True, shop.left_out(made), start.sums)

    def parts_of(self, start: Start) -> PartsBench:
        """The parts of some logic."""
        return PartsBench(divided(start.logic, self.nets, self.task.part_size), start.key, self.bench)

    def ready(self, name: str, path: str) -> Job[Prepared]:
        """Reads a netlist that is there."""
        text = yield Piece(("netlist", name), lambda: read_text(path), MEASURING)
        return Prepared(text, 0)

    def check(self, made: Model, room: str, prepared: Prepared) -> str:
        """Refuses a netlist that isn't shown to be the source, output by output and next state by next state, or to be the netlist with tables that
        it comes from. Returns how it was shown."""
        difference = interface_difference(self.model, made)
        if difference:
            raise Fault(difference)
        if prepared.sums is None:
            return self.comparer.compare_whole(self.model, made, room, prepared.are_parts_equal)
        how = self.comparer.compare_whole(prepared.sums.model, made, room, prepared.are_parts_equal)
        return f"{prepared.sums.shown}; {how} from these gates on"

    def measure(self, name: str, file: str, took: float, room: str, ks: tuple[int, ...] = ()) -> list[Result]:
        """Maps a netlist by each rule at each K, or at some."""
        results, refusal = [], ""
        for k, rule in product(ks or self.task.ks or (self.task.k,), self.task.rules):
            begun = time.monotonic()
            sizes = sizes_by_tlut(self.program, k, file, self.task.parameters, room, *RULES[rule])
            if sizes.refusal:
                refusal = refusal or sizes.refusal
                continue
            changed = median_rewritten(self.program, f"{room}/bits.ppc", self.nets, room, CHANGES) if self.task.aim == "changes" else None
            sites = self.task.family.cost(read_circuit(*(f"{room}/{it}" for it in MAPPED))) if self.task.family else None
            results.append(Result(name, rule, sizes.tables, sizes.depth, sizes.bits, changed, took + time.monotonic() - begun, file, k, sites))
        if not results:
            raise Fault(refused(refusal))
        return results

    def beside(self, made: Model, room: str) -> dict[str, Sizes]:
        """What ABC's mapper makes of a netlist, with the parameters as inputs."""
        if not self.task.beside:
            return {}
        logic = logic_of(made)
        write_text(f"{room}/inputs.blif", logic_text(made, logic.inputs, logic.roots))
        return {words: sizes_by_abc(self.abc, self.task.k, "inputs.blif", words[2:], room, self.task.seconds) for words in ("if", "if -a")}

    def finish(self, name: str, prepared: Prepared) -> Trial:
        """Checks and maps what a preparation made."""
        room = self.room(name)
        file = f"{room}/prepared.blif"
        write_text(file, prepared.text)
        made = read_flat(file)
        compared = self.check(made, room, prepared)
        results = self.measure(name, file, 0, room, (prepared.sums.k,) if prepared.sums else ())
        return Trial(name, results, self.beside(made, room), compared=compared, sums=prepared.sums)

    def attempt(self, name: str, making: Job[Prepared]) -> Job[Trial]:
        """A trial; one that fails says why. Preparations that make the same netlist share what comes after."""
        try:
            prepared = yield from making
            trial: Trial = yield Piece(("finish", prepared.text), lambda: self.finish(name, prepared), MEASURING)
            results = [replace(it, name=name, seconds=prepared.seconds + it.seconds) for it in trial.results]
            return replace(trial, name=name, results=results, parts_left_out=prepared.parts_left_out)
        except Fault as fault:
            return Trial(name, [], {}, str(fault))

    def as_read(self) -> Trial:
        """The source as it is. What `tlut` refuses for another reason than a limit is refused here; a limit may be one of the first rule alone."""
        room = self.room("source")
        refusals = []
        for rule in self.task.rules:
            try:
                sizes = sizes_by_tlut(self.program, self.task.k, self.task.netlist, self.task.parameters, room, *RULES[rule])
            except Fault as fault:
                raise Fault(str(fault).replace(self.task.netlist, self.task.title or self.task.netlist)) from None
            if not sizes.refusal:
                return Trial(AS_READ, self.measure(AS_READ, self.source_in_blif(room), 0, room), self.beside(self.model, room))
            refusals.append(sizes.refusal)
        if refusals[0] == NO_RULE:
            raise Fault(refused(NO_RULE))
        return Trial(AS_READ, [], {}, refused(refusals[0]))

    def source_in_blif(self, room: str) -> str:
        """The source's file, or where that is AIGER one in BLIF."""
        if not read_text(self.task.netlist).startswith("aag "):
            return self.task.netlist
        write_text(f"{room}/source.blif", "\n".join([*model_lines(self.model, self.model.inputs, []), ""]))
        return f"{room}/source.blif"


def refused(code: str) -> str:
    """Why a netlist couldn't be mapped, by what stands in the place of its sizes."""
    return "this tlut has no such rule" if code == NO_RULE else f"tlut refuses it for a limit ({code})"


def prepare(task: Task, folder: str, report: Report = silent) -> Found:
    """Tries all preparations in a folder, which keeps their files, and finds the best one."""
    if task.preparations and not task.sums and all(it.sums for it in task.preparations):
        raise Fault(f"the preparation {task.preparations[0].name} is of sums with parameters, which a netlist doesn't have: give the design in Verilog")
    shop = Workshop(task, folder)
    trials = [shop.as_read()]
    for number in range(task.rounds):
        starts = first_starts(shop) if number == 0 else better_starts(trials, task.aim)
        trials += run_round(shop, starts, trials, number == 0, report)
    results = [it for trial in trials for it in trial.results]
    best = best_of(results, task.aim)
    if best is None:
        raise Fault("no preparation could be mapped: " + "; ".join(f"{it.name}: {it.failure}" for it in trials[:3]))
    return Found(trials, best, task.aim)


def best_of(results: list[Result], aim: str) -> Optional[Result]:
    """The best of some results, the first one of several."""
    return min(results, key=lambda it: it.key(aim)) if results else None


def first_starts(shop: Workshop) -> list[Start]:
    """What preparations start from at first: the source, and its netlists with tables. With several K the names say which one tables are for."""
    many = len({it.k for it in shop.task.sums}) > 1
    return [Start("", shop.logic), *(Start(f"k{it.k}_" if many else "", logic_of(it.model), it) for it in shop.task.sums)]


def better_starts(trials: list[Trial], aim: str) -> list[Start]:
    """The two best preparations so far, from which a further round starts."""
    by_name = {it.name: it for it in trials}
    results = sorted((it for trial in trials for it in trial.results if it.name != AS_READ), key=lambda it: it.key(aim))
    files = list(dict.fromkeys((it.name, it.file) for it in results))[:2]
    return [Start(f"{name}+", logic_of(read_flat(file)), by_name[name].sums) for name, file in files]


def run_round(shop: Workshop, starts: list[Start], before: list[Trial], is_first: bool, report: Report) -> list[Trial]:
    """Tries each preparation from each start, several at a time."""
    named: list[tuple[str, Job[Prepared]]] = []
    if is_first:
        named += [(name, shop.ready(name, path)) for name, path in shop.task.ready.items()]
    pairs = [(start, it) for start in starts for it in shop.task.preparations if starts_with(it, start)]
    named += [(start.name + it.name, shop.prepared(start.name + it.name, start, it)) for start, it in pairs]
    jobs = Jobs([shop.attempt(*it) for it in named], shop.task.jobs or os.cpu_count() or 1)
    trials: dict[int, Trial] = {}
    for place, trial in jobs.run():
        trials[place] = trial
        results = [found for it in [*before, *trials.values()] for found in it.results]
        report(len(trials), len(named), trial, best_of(results, shop.task.aim))
    return [trials[place] for place in range(len(named))]


def keep(result: Result, path: str) -> None:
    """Copies the netlist of a result."""
    try:
        os.makedirs(os.path.dirname(os.path.abspath(path)), exist_ok=True)
        if os.path.abspath(result.file) != os.path.abspath(path):
            shutil.copyfile(result.file, path)
    except OSError as error:
        raise Fault(f"{path}: {error.strerror or error}") from None
