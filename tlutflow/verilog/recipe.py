"""The Yosys recipe that creates a netlist for `tlut`, each line with its reason."""

from __future__ import annotations

import re
from dataclasses import dataclass, field
from typing import Optional

from tlutflow.faults import Fault

# How Yosys's ABC prepares the logic: a choice among structures, then gates that are chosen for little delay.
PREPARATION = "strash;dch;map,-B,0.9;topo"
# How files are read: Yosys's own reader, or one of a plugin that knows more of SystemVerilog.
READERS = {
    "verilog": ("", "read_verilog"),
    "slang": ("slang", "read_slang"),
    "systemverilog": ("systemverilog", "read_systemverilog"),
    "synlig": ("synlig-sv", "read_systemverilog"),
}
# What every script can hold as one argument that nothing expands, and what Yosys's can hold in quotes.
PLAIN = re.compile(r"(?![+~-])[A-Za-z0-9_./+=@,:%-]+")
QUOTABLE = re.compile(r"""(?![+~])[^"\\*?\[\]{}\x00-\x1f\x7f]+""")


@dataclass(frozen=True)
class Step:
    """A command of Yosys and its reason."""

    command: str
    reason: str


@dataclass(frozen=True)
class Sources:
    """A design's files, its top module, the options of its reader: macros, include folders, values of module parameters; files of cells, of
    which only those that the design has are read; whether each module is synthesised alone; and for each file that is a copy the folder in
    which files that it includes are looked for first."""

    files: list[str]
    top: str
    defines: list[str] = field(default_factory=list)
    includes: list[str] = field(default_factory=list)
    settings: list[tuple[str, str]] = field(default_factory=list)
    reader: str = "verilog"
    cells: list[str] = field(default_factory=list)
    by_modules: bool = False
    beside: dict[str, str] = field(default_factory=dict)


class UnquotableName(Fault):
    """A script of Yosys can't hold a name."""


def is_plain(path: str) -> bool:
    """Whether every script can hold a path as one argument that nothing expands."""
    return PLAIN.fullmatch(path) is not None


def quoted(path: str) -> str:
    """A file name as an argument in a Yosys script. A fault if the script can't hold it."""
    if not QUOTABLE.fullmatch(path):
        raise UnquotableName(f"{path}: a script of Yosys can't hold this name; a link with a plain name can be in one")
    return f'"{path}"'


def included(sources: Sources, files: list[str]) -> str:
    """The options for the folders in which what these files include is looked for."""
    folders = [*(sources.beside[it] for it in files if it in sources.beside), *sources.includes]
    for folder in folders:
        if re.search(r"[\s;\"#]", folder):
            raise UnquotableName(f"-I {folder}: a script of Yosys can't hold this name; a link with a plain name can be in one")
    return "".join(f" -I{it}" for it in folders)


def reading(sources: Sources) -> list[Step]:
    """The steps that read a design."""
    plugin, command = READERS[sources.reader]
    words = "".join(f" -D{it}" for it in sources.defines)
    steps = [Step(f"plugin -i {plugin}", "the reader of SystemVerilog")] if plugin else []
    if plugin:
        top = f" --top {sources.top}" if plugin == "slang" else ""
        files = [*sources.files, *sources.cells]
        steps.append(Step(f"{command}{top}{words}{included(sources, files)} {' '.join(map(quoted, files))}", "the design"))
    else:
        ways = {file: f"{words}{included(sources, [file])} {quoted(file)}" for file in (*sources.files, *sources.cells)}
        steps += [Step(f"{command}{' -sv' if file.endswith('.sv') else ''}{ways[file]}", "the design") for file in sources.files]
        steps += [Step(f"read_verilog -defer{ways[file]}", "cells: only those that the design has are looked at") for file in sources.cells]
    steps += [Step(f"chparam -set {name} {value} {sources.top}", "a module parameter's value") for name, value in sources.settings]
    return steps


def look(sources: Sources, design: str) -> list[Step]:
    """The steps by which a design is looked at before any of it is optimised away."""
    return [*reading(sources), Step(f"hierarchy -check -top {sources.top}", ""), Step("proc", ""), Step("flatten", ""), Step(f"write_json {quoted(design)}", "")]


def recipe(sources: Sources, preparation: str, netlist: str, registers: str, ports: str, gates: Optional[str] = None) -> list[Step]:
    """The steps from files in Verilog to the files of the netlist, of its registers and of its ports. With `gates` the netlist before its
    preparation is written to that file too, for others to start from; without a preparation it is the netlist."""
    return [
        *reading(sources),
        *synthesis(sources),
        *plain_flip_flops(registers),
        *(kept_gates(gates) if gates else []),
        *([Step(f"abc -g AND,OR,XOR,MUX -script +{preparation}", "gates of two inputs, and of little depth: the mapper keeps the graph that it reads")] if preparation else []),
        Step("opt_clean -purge", "aliases are removed, such as the second name of a clock, which would count as data"),
        Step(f"write_blif {quoted(netlist)}", "the netlist"),
        Step(f"write_json {quoted(ports)}", "the ports with their attributes"),
    ]


def plain_flip_flops(registers: str) -> list[Step]:
    """The steps after which all flip-flops are plain ones. The file has them as they were."""
    return [
        Step(f"write_json {quoted(registers)}", "the registers with their names and resets, as the source has them"),
        Step("async2sync", "an asynchronous reset becomes logic before and after its flip-flop, since a latch has none"),
        Step("dfflegalize -cell $_DFF_P_ 01", "enables and resets become logic before a plain flip-flop at the positive edge, which starts at 0 or 1"),
    ]


def words(sources: Sources, design: str) -> list[Step]:
    """The steps to a design of one module whose sums and products are still cells of words."""
    return [*reading(sources), Step(f"synth -flatten -top {sources.top} -run :fine", "one module of words"), Step(f"write_json {quoted(design)}", "")]


# The text of a file after which Yosys's own names have larger numbers than before.
NUMBERS = "autoidx 100000000\n"


def gates_of_words(top: str, numbers: str, design: str, stubs: str, registers: str, gates: str) -> list[Step]:
    """The steps from a design whose sums are modules without contents to its other gates and its flip-flops. The file `numbers` has the number at
    which Yosys begins to number its own names, since those that the design has already aren't to be taken."""
    return [
        Step(f"read_rtlil {quoted(numbers)}", "new names have other numbers than those in the design"),
        Step(f"read_json {quoted(design)}", "the design with modules for its sums"),
        Step(f"read_verilog {quoted(stubs)}", "the ports of the modules"),
        Step(f"hierarchy -top {top}", ""),
        Step(f"synth -top {top} -noabc -run fine:", "gates and flip-flops"),
        *plain_flip_flops(registers),
        *kept_gates(gates),
    ]


def synthesis(sources: Sources) -> list[Step]:
    """The steps from a design to one module of gates and flip-flops."""
    if not sources.by_modules:
        return [Step(f"synth -flatten -top {sources.top}", "one module of gates and flip-flops; memories become flip-flops")]
    return [
        Step(f"synth -top {sources.top}", "gates and flip-flops, each module once however often it is placed; memories become flip-flops"),
        Step("flatten", "one module"),
        Step("opt -fast", "constants and copies across the modules are removed"),
    ]


def kept_gates(path: str) -> list[Step]:
    """The steps that write the gates to a file, and their names beside it. A bus that Yosys made for a sum can have places that nothing
    drives or reads: `write_blif` would write one of them as the second name of another."""
    return [
        Step("setundef -undriven -zero", "what nothing drives is 0"),
        Step("opt_clean -purge", "aliases are removed"),
        Step(f"write_blif {quoted(path)}", "where preparations start"),
        Step(f"write_json {quoted(path + '.json')}", ""),
    ]


def script_text(steps: list[Step]) -> str:
    """The steps as a script of Yosys, each one's reason as a comment above it."""
    return "".join(f"# {step.reason}\n{step.command}\n" for step in steps)
