"""Graphs that steps of ABC leave in files, so that preparations that begin alike share these steps.

AIGER's binary form keeps the order of a graph's nodes, on which the result of some commands depends. A step that starts from that file
makes what ABC would have made without a stop. Netlists are made from the BLIF form.
"""

from __future__ import annotations

import itertools
import os
from dataclasses import dataclass

from tlutflow import tools
from tlutflow.faults import Fault
from tlutflow.preparations import GENLIB, MOST_ROUNDS, Preparation, cost_of
from tlutflow.preparing.pieces import Job, Piece
from tlutflow.text import read_text, write_text

# Commands that read a graph depth first, so that the order of its nodes in a file doesn't matter to them.
DEPTH_FIRST = ("dch",)


@dataclass(frozen=True)
class Graph:
    """A graph: its files, NAME.blif and NAME.aig, its levels, the processor time of the step that made it, and the seconds by the clock
    of all steps that led to it."""

    name: str
    levels: int = 0
    processor: float = 0
    seconds: float = 0


class Bench:
    """Where graphs are made: ABC, a folder for the graphs, and the processor time that a preparation may take."""

    def __init__(self, abc: str, folder: str, seconds: float):
        self.abc, self.folder, self.seconds = abc, folder, seconds
        self.numbers = itertools.count()
        os.makedirs(folder, exist_ok=True)
        write_text(f"{folder}/gates.genlib", GENLIB)

    def source(self, text: str) -> Graph:
        """Logic that preparations start from, in BLIF."""
        graph = Graph(f"source{next(self.numbers)}")
        write_text(f"{self.folder}/{graph.name}.blif", text)
        return graph

    def text(self, graph: Graph) -> str:
        """A graph in BLIF."""
        return read_text(f"{self.folder}/{graph.name}.blif")

    def prepared(self, source: Graph, preparation: Preparation) -> Job[Graph]:
        """The graph that a preparation makes of a source."""
        graph, left, processor = source, preparation.cost, 0.0
        for place, commands in enumerate(preparation.steps):
            graph = yield self.step(graph, "read_aiger" if place else "read_blif", commands, left)
            left, processor = left - cost_of(commands), processor + graph.processor
            if processor > tools.limit_of(self.seconds):
                raise Fault(tools.stopped(self.seconds))
        if preparation.repeated:
            graph = yield from self.repeated(graph, preparation, left)
            graph = yield self.again(graph, preparation.last, cost_of(preparation.last))
        return graph

    def repeated(self, graph: Graph, preparation: Preparation, left: int) -> Job[Graph]:
        """Repeats a preparation's commands as long as the graph gets fewer levels; what made no fewer is dropped."""
        for _ in range(MOST_ROUNDS):
            made = yield self.again(graph, preparation.repeated, left)
            if made.levels >= graph.levels:
                break
            graph, left = made, left - cost_of(preparation.repeated)
        return graph

    def again(self, graph: Graph, commands: str, left: int) -> Piece:
        """A step of a preparation with repeated commands. Each of its rounds starts from BLIF, in which nodes are in depth-first order."""
        if commands.split()[0].rstrip(";") in DEPTH_FIRST:
            return self.step(graph, "read_aiger", commands, left)
        return self.step(graph, "read_blif", f"strash; {commands}", left)

    def step(self, graph: Graph, reader: str, commands: str, left: int) -> Piece:
        """Commands of ABC on a graph that is read from one of its files."""
        read = f"{reader} {graph.name}.{'aig' if reader == 'read_aiger' else 'blif'}"
        return Piece(("step", read, commands), lambda: self.made(graph, f"{read}; {commands}"), left)

    def made(self, source: Graph, commands: str) -> Graph:
        """Runs commands of ABC, and keeps the graph that they leave."""
        name = f"graph{next(self.numbers)}"
        script = f"read_library gates.genlib; {commands}; print_stats; write_blif {name}.blif; write_aiger -s {name}.aig"
        ran = tools.run_abc(self.abc, script, self.folder, self.seconds)
        if ran.status or not os.path.exists(f"{self.folder}/{name}.aig"):
            raise tools.abc_failure(ran)
        return Graph(name, levels_of(ran.told), ran.processor, source.seconds + ran.seconds)


def levels_of(told: str) -> int:
    """The levels of a graph in what `print_stats` prints."""
    return int(told.rsplit("lev", 1)[-1].split("=", 1)[-1].split()[0].replace("\x1b[0m", "")) if "lev" in told else 0
