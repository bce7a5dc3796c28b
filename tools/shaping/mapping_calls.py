"""Calls of both programs and of ABC's `if` that map a netlist, from its text to the files that are written: sizes, CPU time and memory of each."""

from __future__ import annotations

import json
import os
import re
from dataclasses import dataclass
from typing import Any, Callable, Mapping, Optional

import measured
from tlutflow import tools
from tlutflow.abc_form import abc_text
from tlutflow.fault_line import parse_fault
from tlutflow.faults import Fault
from tlutflow.mappings import sizes_of
from tlutflow.netlist import read_library
from tlutflow.runs.output import parse_header
from tlutflow.text import read_text, write_text

# A netlist that takes longer than this is run twice only.
LONG = 2.0
SOURCE = "source.blif"
PACK = "bits.ppc"
Numbers = dict[str, Any]


@dataclass(frozen=True)
class Design:
    """A netlist: its title, its file and its list of parameters."""

    title: str
    netlist: str
    parameters: str


@dataclass(frozen=True)
class Job:
    """A call of a program: its words, and the file of the netlist that it writes."""

    words: list[str]
    made: str


def prepare(design: Design, room: str) -> None:
    """Writes the netlist as ABC reads it, and an empty list of parameters."""
    write_text(f"{room}/none.par", "")
    write_text(f"{room}/{SOURCE}", abc_text(read_library(design.netlist), {}))


def lists_of(design: Design, room: str) -> dict[str, str]:
    """The lists with which a netlist is mapped: its own, and an empty one, with which its parameters are inputs."""
    return {"parameters": design.parameters, "inputs": f"{room}/none.par"}


def ands_of(program: str, design: Design, room: str) -> int:
    """How many AND nodes the graph of a netlist has."""
    ran = tools.run([program, "graph", design.netlist, design.parameters, f"{room}/graph.aag"])
    found = re.search(r"ands (\d+)", ran.stdout)
    if not found:
        raise Fault(ran.stderr.strip())
    return int(found[1])


def jobs_of(programs: Mapping[str, str], design: Design, parameters: str, size: int, abc: str, room: str) -> dict[str, Job]:
    """A call by each program and by ABC, for LUTs of this many inputs."""
    files = [str(size), design.netlist, parameters, f"{room}/t.blif", f"{room}/{PACK}"]
    found = {name: Job([program, "map", *files], f"{room}/t.blif") for name, program in programs.items()}
    return {**found, "abc": Job([abc, "-q", f"read_blif {SOURCE}; strash; if -K {size}; write_blif abc.blif"], f"{room}/abc.blif")}


def counted(name: str, room: str) -> Numbers:
    """How large the result of a call is, or why there is none."""
    if name == "abc":
        found = sizes_of(read_library(f"{room}/abc.blif"))
        os.remove(f"{room}/abc.blif")
        return {"luts": found.tables, "depth": found.depth, "bits": found.bits}
    header = parse_header(read_text(f"{room}/out").strip())
    if header is None:
        fault = parse_fault(read_text(f"{room}/err").strip())
        return {"refusal": fault.code if fault else "?"}
    return {"luts": header.tables, "depth": header.depth, "bits": header.bits}


def mapped(jobs: Mapping[str, Job], runs: int, room: str, count: Callable[[str, str], Numbers] = counted) -> dict[str, Numbers]:
    """What each call leaves and takes. The programs take turns; one that is refused, or takes long, is not run again as often."""
    found: dict[str, Numbers] = {}
    for turn in range(runs):
        for name, job in jobs.items():
            before = found.get(name)
            if before and ("refusal" in before or (turn > 1 and before["seconds"] > LONG)):
                continue
            took = measured.run(room, job.words)
            if before:
                before["seconds"] = min(before["seconds"], round(took.processor, 4))
            else:
                found[name] = {**count(name, room), "seconds": round(took.processor, 4), "megabytes": took.megabytes}
    return found


def kept(path: Optional[str]) -> Numbers:
    """The netlists that a file of figures has, if it is there."""
    if not path or not os.path.exists(path):
        return {}
    with open(path, encoding="utf-8") as file:
        found: Numbers = json.load(file)["netlists"]
    return found
