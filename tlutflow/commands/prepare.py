"""`flow prepare`: the preparation of a netlist that measures best."""

from __future__ import annotations

import argparse
import os
from dataclasses import replace

from tlutflow.commands.hdl import add_family_word
from tlutflow.devices.families import FAMILIES, Family, costs_text, told
from tlutflow.faults import Fault
from tlutflow.options import PrepareOptions
from tlutflow.parameters import read_parameters
from tlutflow.plain_names import temporary_folder
from tlutflow.port_file import keep_ports
from tlutflow.preparing.parts import PART_SIZE
from tlutflow.preparing.trials import AIMS, OLD_AIMS, RULE_NAMES, RULES, Found, keep, prepare
from tlutflow.reports.statistics import grid
from tlutflow.stages.preparing import preparations_of, progress, sizes, task_of
from tlutflow.text import count

HELP = "the preparation of a netlist that measures best"
DESCRIPTION = f"""Tries a list of preparations of a netlist (BLIF, or AIGER's ASCII form) in parallel, maps each one by both rules (tlut, and
tlut --compact), and writes the best netlist to FILE. A preparation is a sequence of ABC commands that restructures the logic. The mapper's
depth is the least one for the graph that it reads, so another preparation can have a lower one.

Each prepared netlist is compared with its source by ABC (cec), output by output and next state by next state; the flip-flops, their
initial values and all names of ports and flip-flops stay. A preparation that fails, takes too long or isn't shown to be equal is
skipped, and stderr says why. Each one begins with strash, which factors covers of many inputs, such as those of a netlist of LUTs.

Logic of more than {PART_SIZE:,} gates is prepared and compared in parts of at most that size, and --seconds is for each part. A part that isn't
done in time stays as it is, and stderr says which. Logic of parameters alone is in no part.

The table has a row for each preparation and rule, the best one first. A star marks those that no other beats in LUTs, depth and bits."""
EXAMPLE = """examples:
  flow prepare fir.blif fir.par --k 4 --out fir_prepared.blif
  flow prepare fir.blif fir.par --k 6 --for luts --only raw --only dc2 --try short='dc2; balance'"""


def aim_of(word: str) -> str:
    """The aim that a word after --for names."""
    return OLD_AIMS.get(word, word)


def add_words(parser: argparse.ArgumentParser) -> None:
    parser.add_argument("netlist", metavar="NETLIST", help="the netlist, in BLIF or AIGER")
    parser.add_argument("params", metavar="PARAMS", help="its parameter list")
    parser.add_argument("--out", metavar="FILE", help="where the best netlist goes (default: NETLIST's name with _prepared.blif, in the current directory)")
    add_shared_words(parser, 4)
    add_family_word(parser)
    parser.add_argument("--list", action="store_true", help="print the preparations and their commands instead, and try nothing")
    parser.add_argument("--beside", action="store_true", help="also map each one by ABC, with the parameters as inputs")


def add_shared_words(parser: argparse.ArgumentParser, k: int) -> None:
    """The words that `prepare`, `verilog` and `build` share."""
    parser.add_argument("--k", metavar="K", type=int, choices=range(2, 7), help=f"inputs of a LUT, 2 to 6 (default: {k})")
    aims = "what to minimise; changes: the median number of bits that a random parameter change rewrites; sites: what --device counts"
    parser.add_argument("--for", dest="aim", type=aim_of, choices=list(AIMS), help=f"{aims} (default: depth, then the fewest LUTs; with --device sites)")
    parser.add_argument("--rule", choices=list(RULES), help="map by this rule alone (default: by both)")
    parser.add_argument("--seconds", type=float, default=60, help="CPU time that ABC may take for a preparation, a comparison or a size, or for a part of one, and time for a simulation of build (default: 60)")
    parser.add_argument("--try", dest="further", metavar="NAME=COMMANDS", action="append", default=[], help="a further preparation, commands of ABC (repeat it)")
    parser.add_argument("--only", metavar="NAME", action="append", default=[], help="try this preparation alone (repeat it)")
    parser.add_argument("--rounds", type=int, choices=(1, 2, 3), default=1, help="a further round starts from the two best of the round before (default: 1)")
    parser.add_argument("-j", dest="jobs", metavar="N", type=int, default=0, help="how many run at a time (default: one for each processor)")
    parser.add_argument("--tlut", metavar="PATH", help="the program (default: that of the variable TLUT, or the one next to this one)")
    parser.set_defaults(usual_k=k, device=None)


def goal_of(given: argparse.Namespace) -> tuple[int, tuple[int, ...], str]:
    """K, the values of K among which the count of a device chooses, and the aim: what options chose, and the usual for the rest."""
    family = FAMILIES[given.device] if given.device else None
    if given.aim == "sites" and family is None:
        raise Fault("--for sites needs --device, which says what is counted")
    ks = family.ks if family and given.k is None else ()
    return given.k or (max(ks) if ks else given.usual_k), ks, given.aim or ("sites" if family else "depth")


def options_of(given: argparse.Namespace) -> PrepareOptions:
    """What these arguments choose. `prepare` itself has no --quick and no --abc."""
    k, ks, aim = goal_of(given)
    quick, abc = getattr(given, "quick", False), getattr(given, "abc", None)
    tried = (tuple(given.further), tuple(given.only), given.rounds)
    return PrepareOptions(k, ks, aim, given.rule, given.device, quick, abc, *tried, given.seconds, given.jobs, given.tlut, given.prog)


def table(found: Found) -> list[str]:
    """The lines of the table."""
    measured, beside = found.best.changed is not None, any(trial.by_abc for trial in found.trials)
    by_abc = {trial.name: [cell for it in trial.by_abc.values() for cell in it.cells()[:2]] for trial in found.trials}
    counted = found.best.sites is not None
    rows = [["preparation", "rule", *(["K", "sites"] if counted else []), "LUTs", "depth", "bits", *(["a change"] if measured else []), "seconds", "front"]]
    rows[0] += ["if: LUTs", "depth", "if -a: LUTs", "depth"] if beside else []
    front = found.front
    for it in found.results:
        cells = [it.name, it.rule, *([str(it.k), str(it.sites)] if counted else []), str(it.tables), str(it.depth), str(it.bits)]
        cells += [str(it.changed)] if measured else []
        rows.append([*cells, f"{it.seconds:.1f}", "*" if it in front else "", *(by_abc[it.name] if beside else [])])
    return grid(rows)


def least_costs(found: Found) -> dict[int, int]:
    """What the device counts at least at each K."""
    least: dict[int, int] = {}
    for it in found.results:
        least[it.k] = min(least.get(it.k, it.sites or 0), it.sites or 0)
    return least


def choice_text(family: Family, aim: str, found: Found) -> str:
    """What was chosen for a device, and why."""
    what = f"K {found.best.k}, {RULE_NAMES[found.best.rule]}, preparation {found.best.name} for {aim} ({costs_text(family, least_costs(found))})"
    return told(family, what)


def default_file(netlist: str) -> str:
    """The file that the best netlist goes to."""
    return f"{os.path.splitext(os.path.basename(netlist))[0]}_prepared.blif"


def run(given: argparse.Namespace) -> int:
    if given.list:
        listed = preparations_of(given.only, given.further)
        width = max(len(it.name) for it in listed) + 2
        print("\n".join(f"{it.name:{width}}{it.shown}" for it in listed))
        return 0
    options = options_of(given)
    task = task_of(options, given.netlist, given.params)
    named = count(len(read_parameters(given.params)), "parameter")
    out = given.out or default_file(given.netlist)
    with temporary_folder() as folder:
        found = prepare(replace(task, beside=given.beside), folder, progress(given.prog))
        keep(found.best, out)
    keep_ports(given.netlist, out)
    print(f"{os.path.basename(given.netlist)}, {named}, K {' '.join(map(str, options.ks or [options.k]))}, for {options.aim}")
    print("\n".join(table(found)))
    if options.family:
        print(choice_text(options.family, options.aim, found))
    print(f"{out}: {found.best.name}, {sizes(found.best)} with {RULE_NAMES[found.best.rule]}; equal to its source ({found.best_trial.compared})")
    return 0
