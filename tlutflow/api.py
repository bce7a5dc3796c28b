"""The package's interface for other Python programs.

    from tlutflow import Mapping, build, prepare, read_netlist, read_pack

    netlist = read_netlist("fir.blif")                       # BLIF, or AIGER's ASCII form
    found = prepare("fir.blif", "fir.par", k=4, out="prepared.blif")
    mapping = Mapping.make("prepared.blif", "fir.par", k=4, folder="made", rule=found.best.rule)
    print(mapping.statistics.tables, mapping.statistics.depth, mapping.pack.configuration({"c0[0]": 1, ..}))
    build("fir.v", out="made", top="fir", param={"c0": 5}, k=4)

What can't be done raises `Fault`, whose text is one line.
"""

from __future__ import annotations

import argparse
import os
from dataclasses import dataclass, replace
from functools import cached_property
from typing import Any, Optional

from tlutflow import tools
from tlutflow.circuit import Circuit, read_circuit
from tlutflow.faults import Fault
from tlutflow.netlist import Library
from tlutflow.netlist import read_library as read_netlist
from tlutflow.pack import Pack, read_pack
from tlutflow.plain_names import temporary_folder
from tlutflow.preparing.trials import RULES, Found, keep
from tlutflow.preparing.trials import prepare as try_preparations
from tlutflow.refusals import refusal_of
from tlutflow.reports.statistics import Statistics, statistics
from tlutflow.stages.preparing import task_of
from tlutflow.values import given_of

__all__ = ["Fault", "Library", "Mapping", "Pack", "build", "prepare", "read_netlist", "read_pack"]


@dataclass(frozen=True)
class Mapping:
    """A mapped circuit: the files of its template and of its pack, as `tlut map` writes them."""

    template: str
    pack_file: str

    @classmethod
    def make(cls, netlist: str, parameters: str, k: int, folder: str, rule: str = "tlut", program: Optional[str] = None) -> Mapping:
        """Maps a netlist to LUTs of k inputs by a rule, `tlut` or `compact`, and writes NAME_t.blif and NAME.ppc into a folder."""
        if rule not in RULES:
            raise Fault(f"unknown rule {rule}; the rules are {', '.join(RULES)}")
        base = f"{folder}/{os.path.splitext(os.path.basename(netlist))[0]}"
        made = cls(f"{base}_t.blif", f"{base}.ppc")
        os.makedirs(folder, exist_ok=True)
        ran = tools.run([tools.tlut(program), *RULES[rule], "map", str(k), netlist, parameters, made.template, made.pack_file])
        if ran.returncode:
            raise refusal_of(ran, written=[made.template, made.pack_file])
        return made

    @cached_property
    def circuit(self) -> Circuit:
        """The LUTs, flip-flops and outputs."""
        return read_circuit(self.template, self.pack_file)

    @property
    def pack(self) -> Pack:
        """The configuration bits as functions of the parameters."""
        return self.circuit.pack

    @cached_property
    def statistics(self) -> Statistics:
        """The counts that `flow report` shows."""
        return statistics(self.circuit)


def prepare(netlist: str, parameters: str, k: int, aim: str = "depth", out: Optional[str] = None, program: Optional[str] = None, **options: Any) -> Found:
    """Tries preparations as `flow prepare` does, and writes the best netlist to `out`. Further options are those of `build`: only, further,
    seconds, jobs, rounds; and `beside`. The files of the results are gone when it returns."""
    from tlutflow.commands.prepare import options_of

    given = arguments("prepare", {**options, "netlist": netlist, "params": parameters, "k": k, "aim": aim, "tlut": program})
    with temporary_folder() as folder:
        found = try_preparations(replace(task_of(options_of(given), netlist, parameters), beside=given.beside), folder)
        if out:
            keep(found.best, out)
    return found


def build(*files: str, out: str, **options: Any) -> str:
    """Builds a design as `flow build` does, and returns the path of the report. Options have their names on the command line, with _ for -, or
    `aim`, `further` and `jobs` for --for, --try and -j. What can be repeated is a list of words, or a mapping: `param={"c0": 5}`. It prints
    nothing but its progress, on stderr."""
    from tlutflow.commands.build import make

    return make(arguments("build", {**options, "files": list(files), "out": out})).report


def arguments(subcommand: str, values: dict[str, Any]) -> argparse.Namespace:
    """The arguments of a subcommand with these values."""
    from tlutflow.commands.complete import subcommands_of
    from tlutflow.main import parser

    return given_of(subcommand, subcommands_of(parser())[subcommand], values)
