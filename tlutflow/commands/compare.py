"""`flow compare`: LUTs, depth and bits beside those of ABC."""

from __future__ import annotations

import argparse
import os
from concurrent.futures import ThreadPoolExecutor
from typing import Callable

from tlutflow import tools
from tlutflow.abc_form import abc_text
from tlutflow.faults import Fault
from tlutflow.mappings import SECONDS, Sizes, sizes_by_abc, sizes_by_tlut
from tlutflow.netlist import read_library
from tlutflow.parameters import read_parameters
from tlutflow.patience import patience
from tlutflow.plain_names import temporary_folder
from tlutflow.reports.statistics import grid
from tlutflow.text import count, write_text

HELP = "LUTs, depth and bits at each K, compared with ABC"
DESCRIPTION = """Maps a netlist at each K, and prints the sizes in one table:

  tunable     by tlut, with the parameters of the list
  compact     the same by tlut --compact; - if the named program doesn't have both rules
  inputs      by tlut, with the parameters as ordinary inputs
  if, if -a   by ABC's mapper with the parameters as inputs, for depth and for area, over the same graph

A LUT of m inputs has 2^m bits. If tlut refuses the netlist for a limit, its code is printed, for example L4:
too many cuts of a node, which is no limit of tlut --compact. If ABC takes longer than --seconds, that is printed as timeout."""
EXAMPLE = """example:
  flow compare fir.blif fir.par --k 4 --k 6"""


def add_words(parser: argparse.ArgumentParser) -> None:
    parser.add_argument("netlist", metavar="NETLIST", help="the netlist, in BLIF or AIGER")
    parser.add_argument("params", metavar="PARAMS", help="its parameter list")
    parser.add_argument("--k", metavar="K", type=int, choices=range(2, 7), action="append", help="LUT inputs, 2 to 6; repeatable (default: all)")
    parser.add_argument("--seconds", type=float, default=SECONDS, help="processor time that ABC may take for one size (default: 600)")
    parser.add_argument("-j", dest="jobs", metavar="N", type=int, default=0, help="how many run at a time (default: one for each processor)")
    parser.add_argument("--tlut", metavar="PATH", help="the program (default: that of the variable TLUT, or the one next to this one)")


def columns(given: argparse.Namespace, program: str, abc: str, folder: str) -> list[Callable[[int, str], Sizes]]:
    """The calls whose sizes are the columns, each with K and a folder of its own."""
    calls = [(given.params, ()), (given.params, ("--compact",)), (f"{folder}/none.par", ())]
    by_tlut = [lambda k, room, it=it: sizes_by_tlut(program, k, given.netlist, it[0], room, *it[1]) for it in calls]
    return [*by_tlut, *(lambda k, room, it=it: sizes_by_abc(abc, k, f"{folder}/source.blif", it, room, given.seconds) for it in ("", " -a"))]


def sizes(given: argparse.Namespace, program: str, abc: str, folder: str) -> dict[int, list[Sizes]]:
    """For each K the sizes of the five columns, several at a time."""
    write_text(f"{folder}/none.par", "")
    write_text(f"{folder}/source.blif", abc_text(read_library(given.netlist), {}))
    calls, done = columns(given, program, abc, folder), []
    jobs = [(k, place) for k in given.k or range(2, 7) for place in range(len(calls))]

    def one(job: tuple[int, int]) -> Sizes:
        room = f"{folder}/{job[0]}_{job[1]}"
        os.makedirs(room, exist_ok=True)
        found = calls[job[1]](job[0], room)
        done.append(job)
        return found

    with patience(given.prog, lambda: f"{len(done)} of {len(jobs)} sizes"), ThreadPoolExecutor(given.jobs or os.cpu_count() or 1) as pool:
        made = dict(zip(jobs, pool.map(one, jobs)))
    return {k: [made[k, place] for place in range(len(calls))] for k, _ in made}


def run(given: argparse.Namespace) -> int:
    if given.seconds <= 0 or given.jobs < 0:
        raise Fault("--seconds is more than 0, and -j at least 1")
    program, abc = tools.tlut(given.tlut), tools.need(tools.ABC, "a comparison with ABC")
    if not os.path.exists(given.netlist):
        raise Fault(f"{given.netlist}: no such file")
    parameters = len(read_parameters(given.params))
    with temporary_folder() as folder:
        found = sizes(given, program, abc, folder)
    heads = [["", *(cell for title in ("tunable", "compact", "inputs", "if", "if -a") for cell in (title, "", ""))], ["K", *["tables", "depth", "bits"] * 5]]
    print(f"{os.path.basename(given.netlist)}, {count(parameters, 'parameter')}")
    print("\n".join(grid([*heads, *([str(size), *(cell for it in row for cell in it.cells())] for size, row in found.items())])))
    return 0
