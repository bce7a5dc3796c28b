#!/usr/bin/env python3
"""Measures what the choice of a preparation gains: the table of docs/verilog.md.

    python3 tools/preparations.py [-j N] [--k K ..] [--design WORD ..] [--alone]

For each design and K it prints the LUTs and the depth that `tlut --compact` has by the one preparation of `flow verilog --quick`, by the
preparation of the least depth and by that of the fewest LUTs, and the least depth that ABC's `if` or `if -a` has on the same preparations
with the parameters as inputs. Each kept netlist is compared with its source by `flow check`, and with --alone each preparation is also
run alone, and the best of these is to be that of the list. The last lines are geometric means against `yosys`, the recipe's own preparation. It needs Yosys and ABC,
and a built tlut.
"""

from __future__ import annotations

import argparse
import math
import os
import sys
import tempfile
from concurrent.futures import ThreadPoolExecutor
from dataclasses import replace

TOP = os.path.dirname(os.path.dirname(os.path.abspath(__file__)))
sys.path.insert(0, TOP)

from tlutflow import tools
from tlutflow.faults import Fault
from tlutflow.parameters import parameter_list
from tlutflow.preparing.flat import read_flat
from tlutflow.preparing.trials import Found, Result, Task, Trial, Workshop, prepare
from tlutflow.text import write_text
from tlutflow.verilog.design import parameters_of, ports_of
from tlutflow.verilog.design_json import read_design
from tlutflow.verilog.recipe import PREPARATION, Sources, recipe, script_text
from trial_designs import DESIGNS

QUICK = "yosys"
STORED = {"a filter of 3 taps (fir)": ("fir", "c0 c1 c2"), "a counter with a matcher": ("matcher", "pattern care"), "a coder": ("coder", "key")}
FIR8 = f"{TOP}/examples/fir8/fir8.v", "fir8", ""


def sources(room: str) -> dict[str, tuple[str, str, list[str]]]:
    """The designs: the file, the module, and the ports that are parameters without an attribute."""
    found = {title: (f"{TOP}/examples/{name}/{name}.v", name, ports.split()) for title, (name, ports) in STORED.items()}
    for place, (title, text) in enumerate(DESIGNS.items()):
        write_text(f"{room}/{place}.v", text)
        found[title] = f"{room}/{place}.v", "top", []
    return {**found, "a filter of 8 taps (fir8)": (FIR8[0], FIR8[1], [])}


def synthesised(file: str, top: str, ports: list[str], room: str) -> dict[str, str]:
    """The files that Yosys makes: the gates, the quick preparation and the list of parameters."""
    files = {word: f"{room}/{word}" for word in ("quick.blif", "registers.json", "ports.json", "gates.blif", "list.par")}
    script = script_text(recipe(Sources([file], top), PREPARATION, *[files[it] for it in ("quick.blif", "registers.json", "ports.json", "gates.blif")]))
    write_text(f"{room}/recipe.ys", script)
    ran = tools.run([tools.need(tools.YOSYS, "the designs"), "-q", "-s", f"{room}/recipe.ys"])
    if ran.returncode:
        sys.exit(ran.stderr)
    write_text(files["list.par"], parameter_list(parameters_of(ports_of(read_design(files["ports.json"], top)), [f"{port}=1" for port in ports], ["clk"])))
    return files


def measured(source: tuple[str, str, list[str]], ks: list[int], jobs: int, alone: bool) -> dict[int, Found]:
    """All preparations of a design at each K: they are made once, and mapped at each."""
    with tempfile.TemporaryDirectory(prefix="flow-") as room:
        files = synthesised(*source, room)
        task = Task(files["gates.blif"], files["list.par"], ks[0], "depth", 60, jobs, beside=True, ready={QUICK: files["quick.blif"]})
        found = {ks[0]: prepare(task, f"{room}/trials")}
        for k in ks[1:]:
            shop = Workshop(replace(task, k=k), f"{room}/trials{k}")
            with ThreadPoolExecutor(jobs or os.cpu_count() or 1) as pool:
                trials = list(pool.map(lambda trial: mapped_again(shop, trial), [it for it in found[ks[0]].trials if it.results]))
            results = [it for trial in trials for it in trial.results]
            found[k] = Found(trials, min(results, key=lambda it: it.key("depth")), "depth")
        for k, it in found.items():
            check_kept(files["gates.blif"], it)
            if alone:
                check_alone(replace(task, k=k, beside=False), it, f"{room}/alone{k}")
        return found


def check_kept(source: str, found: Found) -> None:
    """Stops if a netlist that would be kept for depth or for few LUTs isn't its source."""
    for file in dict.fromkeys(min(found.results, key=lambda it: it.key(aim)).file for aim in ("depth", "luts")):
        ran = tools.run([f"{TOP}/flow", "check", source, file])
        if ran.returncode:
            sys.exit(f"{file}: {ran.stderr}")


def check_alone(task: Task, found: Found, room: str) -> None:
    """Stops if a preparation that is run alone has less depth, or fewer LUTs at the same depth, than the best of the list."""
    for it in task.preparations:
        best = prepare(replace(task, preparations=[it], ready={}), f"{room}/{it.name}").best
        if best.key("depth") < found.best.key("depth"):
            sys.exit(f"{it.name} alone: depth {best.depth}, {best.tables} LUTs; of the list {found.best.depth}, {found.best.tables}")


def mapped_again(shop: Workshop, trial: Trial) -> Trial:
    """A preparation mapped at another K."""
    file, room = trial.results[0].file, shop.room(trial.name)
    try:
        return Trial(trial.name, shop.measure(trial.name, file, 0, room), shop.beside(read_flat(file), room))
    except Fault as fault:
        return Trial(trial.name, [], {}, str(fault))


def cell(result: Result) -> str:
    """A result in a cell."""
    return f"{result.tables:,}/{result.depth}"


def main() -> int:
    parser = argparse.ArgumentParser(description=__doc__, formatter_class=argparse.RawDescriptionHelpFormatter)
    parser.add_argument("-j", dest="jobs", type=int, default=0, help="how many preparations run at a time")
    parser.add_argument("--k", type=int, choices=range(2, 7), action="append", help="the inputs of a LUT (repeat it; default: 4 and 6)")
    parser.add_argument("--design", metavar="WORD", action="append", default=[], help="the designs with this word in their titles (repeat it)")
    parser.add_argument("--alone", action="store_true", help="run each preparation alone too, and compare")
    given = parser.parse_args()
    print("| Design | K | `yosys` | least depth | by | fewest LUTs | by | ABC, least depth | by |\n|---|---|---|---|---|---|---|---|---|", flush=True)
    ratios: dict[int, list[tuple[float, float]]] = {}
    with tempfile.TemporaryDirectory(prefix="flow-") as room:
        for title, source in sources(room).items():
            if given.design and not any(word in title for word in given.design):
                continue
            for k, found in measured(source, given.k or [4, 6], given.jobs, given.alone).items():
                compact = [it for it in found.results if it.rule == "compact"]
                quick = next(it for it in compact if it.name == QUICK)
                deep, small = (min(compact, key=lambda it: it.key(aim)) for aim in ("depth", "luts"))
                abc = found.best_by_abc()
                assert abc
                row = [title, str(k), cell(quick), cell(deep), deep.name, cell(small), small.name, f"{abc[2].tables:,}/{abc[2].depth}", f"{abc[0]}, `{abc[1]}`"]
                print("| " + " | ".join(row) + " |", flush=True)
                for it in found.failures:
                    print(f"{title}, K {k}: {it.name}: {it.failure}", file=sys.stderr, flush=True)
                ratios.setdefault(k, []).append((deep.depth / quick.depth, small.tables / quick.tables))
    for k, found_ratios in ratios.items():
        means = [math.exp(sum(map(math.log, column)) / len(column)) for column in zip(*found_ratios)]
        print(f"K {k}, {len(found_ratios)} designs: {means[0]:.3f} of the depth, {means[1]:.3f} of the LUTs")
    return 0


if __name__ == "__main__":
    sys.exit(main())
