"""Sizes of a circuit mapped by `tlut` and by ABC."""

from __future__ import annotations

import os
from dataclasses import dataclass

from tlutflow import tools
from tlutflow.fault_line import parse_fault
from tlutflow.faults import Fault, Undecided
from tlutflow.netlist import Cover, Library, read_library
from tlutflow.refusals import refusal
from tlutflow.runs.output import parse_header
from tlutflow.text import logical_lines, read_text

# The files of a mapping whose sizes were taken: its template and its pack.
MAPPED = ("template.blif", "bits.ppc")
# What stands for the sizes by a program that takes too long, and the processor time that ABC may take if nothing else is said.
TIMEOUT = "timeout"
SECONDS = 600.0


@dataclass(frozen=True)
class Sizes:
    """The numbers of LUTs and bits of a mapped circuit, and its depth; or why it couldn't be mapped."""

    tables: int = 0
    depth: int = 0
    bits: int = 0
    refusal: str = ""

    def cells(self) -> list[str]:
        """The three numbers, or the refusal instead of the first."""
        return [self.refusal, "", ""] if self.refusal else [str(self.tables), str(self.depth), str(self.bits)]


def sizes_by_tlut(program: str, size: int, netlist: str, parameters: str, folder: str, *rule: str) -> Sizes:
    """The sizes that `tlut map` reports for LUTs of this many inputs; with an option for the rule if the program has it."""
    files = [os.path.abspath(it) for it in (netlist, parameters)]
    ran = tools.run([program, *rule, "map", str(size), *files, *(f"{folder}/{it}" for it in MAPPED)], folder)
    header = parse_header(ran.stdout.strip())
    if ran.returncode == 0 and header and header.tables is not None and header.depth is not None:
        return Sizes(header.tables, header.depth, header.bits)
    if rule and ran.returncode == 2:
        return Sizes(refusal="-")
    told = (ran.stderr.strip().splitlines() or [f"{program} ended with status {ran.returncode}"])[-1]
    fault = parse_fault(told)
    if fault and fault.code.startswith("L"):
        return Sizes(refusal=fault.code)
    raise refusal(told, dict(zip(files, (netlist, parameters))), [f"{folder}/{it}" for it in MAPPED])


def sizes_by_abc(abc: str, size: int, netlist: str, words: str, folder: str, seconds: float = SECONDS) -> Sizes:
    """The sizes after mapping a netlist by ABC's `if` with these arguments. The netlist's path is relative to the folder, or absolute."""
    name, made = os.path.relpath(os.path.join(folder, netlist), folder), f"{folder}/abc.blif"
    commands = f"read_blif {name}; strash; if -K {size}{words}; write_blif abc.blif"
    try:
        ran = tools.run_abc(abc, commands, folder, seconds)
    except Undecided:
        return Sizes(refusal=TIMEOUT)
    if ran.status or not os.path.exists(made):
        raise tools.abc_failure(ran)
    found = sizes_of(whole_library(made))
    os.remove(made)
    return found


def whole_library(path: str) -> Library:
    """A netlist that another program wrote. A fault if its end is missing."""
    last = [line.tokens for line in logical_lines(read_text(path))][-1:]
    if last != [[".end"]]:
        raise Fault(f"{path}: its last line isn't .end, so it wasn't written to its end")
    return read_library(path)


def is_table(cover: Cover) -> bool:
    """Whether a cover is a LUT, not a constant or a second name."""
    return bool(cover.inputs) and cover.rows != [("1", "1")]


def sizes_of(library: Library) -> Sizes:
    """The sizes of a mapped netlist of one model."""
    tables = [cover for cover in library.main.covers if is_table(cover)]
    return Sizes(len(tables), depth_of(library), sum(1 << len(cover.inputs) for cover in tables))


def depth_of(library: Library) -> int:
    """The number of LUTs on the critical path."""
    covers = {cover.output: cover for cover in library.main.covers}
    depths: dict[str, int] = {}
    for net in covers:
        waiting = [net]
        while waiting:
            at = waiting[-1]
            missing = [name for name in covers[at].inputs if name in covers and name not in depths]
            if missing:
                waiting += missing
                continue
            waiting.pop()
            depths[at] = is_table(covers[at]) + max((depths.get(name, 0) for name in covers[at].inputs), default=0)
    return max(depths.values(), default=0)
