"""The task of trying preparations that options name, and how far it is."""

from __future__ import annotations

import sys
from dataclasses import replace
from typing import Optional, Sequence

from tlutflow.options import PrepareOptions
from tlutflow.preparations import PREPARATIONS, SUM_PREPARATIONS, Preparation, chosen, further
from tlutflow.preparing.trials import RULES, Report, Result, Task, Trial
from tlutflow.text import count


def progress(prog: str) -> Report:
    """Says on standard error how many preparations are done, the best so far, what fails, and which parts stay as they were read."""

    def report(done: int, many: int, trial: Trial, best: Optional[Result]) -> None:
        if trial.failure:
            print(f"{prog}: {trial.name} is left out: {trial.failure}", file=sys.stderr)
        if trial.parts_left_out:
            print(f"{prog}: {trial.name} leaves {trial.parts_left_out}", file=sys.stderr)
        so_far = f"best so far: {sizes(best)} by {best.name}" if best else "none could be mapped so far"
        print(f"{prog}: {done} of {many} preparations, {so_far}", file=sys.stderr, flush=True)

    return report


def sizes(result: Result) -> str:
    """The sizes of a result in words."""
    changed = "" if result.changed is None else f", {count(result.changed, 'bit')} a change"
    sites = "" if result.sites is None else f"{count(result.sites, 'site')}, "
    return f"{sites}depth {result.depth}, {count(result.tables, 'LUT')}, {count(result.bits, 'bit')}{changed}"


def task_of(options: PrepareOptions, netlist: str, parameters: str) -> Task:
    """The task that options name."""
    preparations = preparations_of(options.only, options.further)
    task = Task(netlist, parameters, options.k, options.aim, options.seconds, options.jobs, options.rounds, preparations=preparations, program=options.program)
    return replace(task, rules=(options.rule,) if options.rule else tuple(RULES), family=options.family, ks=options.ks)


def preparations_of(only: Sequence[str], more: Sequence[str]) -> list[Preparation]:
    """The preparations that are named, of those that are known and those that are given as NAME=COMMANDS."""
    known = [*PREPARATIONS, *SUM_PREPARATIONS]
    return chosen(list(only), [*known, *further(list(more), known)])
