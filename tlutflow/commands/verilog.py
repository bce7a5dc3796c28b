"""`flow verilog`: a netlist and its parameter list from a design in Verilog."""

from __future__ import annotations

import argparse
import os
import shutil

from tlutflow.build_files import refuse_links
from tlutflow.buses import buses_of
from tlutflow.commands.hdl import add_family_word
from tlutflow.commands.prepare import add_shared_words, options_of
from tlutflow.faults import Fault
from tlutflow.options import DesignOptions
from tlutflow.parameters import parameter_list
from tlutflow.plain_names import work_folder
from tlutflow.port_file import END, file_name
from tlutflow.preparing.parts import PART_SIZE
from tlutflow.preparing.trials import RULE_NAMES
from tlutflow.stages.elaboration import make, preparation_of, sources_of
from tlutflow.stages.preparing import sizes
from tlutflow.text import write_text
from tlutflow.verilog.design import ATTRIBUTE
from tlutflow.verilog.recipe import PREPARATION, READERS, recipe, script_text

HELP = "a netlist and its parameter list from a design in Verilog"
DESCRIPTION = f"""Creates FOLDER/TOP.blif, FOLDER/TOP.par and FOLDER/TOP.ports.json from a design in Verilog (files .sv are read as SystemVerilog), by Yosys.
The last file has what a netlist can't hold: the order of each port's digits, signs, and the names of the registers. The other
subcommands read it if it is next to their files.

Parameters are input ports that change seldom. A port is a parameter if --param gives its initial value, or if it has the
attribute {ATTRIBUTE} with that value: (* {ATTRIBUTE} = 5 *) input [2:0] c0. A value on the command line overrides an attribute's.

The netlist is the one that measures best of many preparations of the logic (see flow prepare --help), which needs ABC and tlut and
takes seconds to minutes. With --quick, or with --abc SCRIPT, one preparation is used and nothing is measured.

A design of more than about {PART_SIZE:,} gates is synthesised module by module, and prepared in parts, also with --quick. ABC may take --seconds
for each part. A part that isn't done in time stays as Yosys left it, and stderr says which."""
EXAMPLE = """examples:
  flow verilog fir.v --top fir --param c0=5 --param c1=3 --param c2=6
  flow verilog top.v part.v --top top --set WIDTH=8 -D FAST -I include
  flow verilog fir.v --top fir --recipe          # the script for Yosys, with reasons"""

def add_words(parser: argparse.ArgumentParser) -> None:
    parser.add_argument("files", metavar="FILE.v", nargs="+", help="the design's files")
    parser.add_argument("--top", metavar="TOP", required=True, help="the module to take")
    parser.add_argument("--param", metavar="PORT=VALUE", action="append", default=[], help="an input port that is a parameter (repeat it)")
    add_source_words(parser)
    parser.add_argument("--out", metavar="FOLDER", default=".", help="where the files go (default: the current directory)")
    add_shared_words(parser, 4)
    add_family_word(parser)
    parser.add_argument("--recipe", action="store_true", help="print the script for Yosys, and create nothing")


def add_source_words(parser: argparse.ArgumentParser) -> None:
    """The arguments about a design in Verilog that `verilog` and `build` share."""
    parser.add_argument("--set", metavar="NAME=VALUE", action="append", default=[], help="the value of a parameter of the module TOP (repeat it)")
    parser.add_argument("-D", "--define", metavar="NAME[=TEXT]", action="append", default=[], help="a macro (repeat it)")
    parser.add_argument("-I", "--include", metavar="FOLDER", action="append", default=[], help="where included files are looked for (repeat it)")
    parser.add_argument("--cells", metavar="FILE.v", action="append", default=[], help="models of cells, as a vendor's library has them, of which the design has some (repeat it)")
    parser.add_argument("--reader", choices=list(READERS), default="verilog", help="Yosys's own reader (verilog), or one of a plugin, which has to be installed")
    parser.add_argument("--by-modules", action="store_true", help="synthesise each module once and flatten the design afterwards; large designs always are")
    parser.add_argument("--quick", action="store_true", help=f"one preparation, and no measuring: {PREPARATION}")
    parser.add_argument("--abc", metavar="SCRIPT", help="one preparation by these commands of ABC, and no measuring")


def design_of(given: argparse.Namespace) -> DesignOptions:
    """The design that these arguments name."""
    lists = (tuple(it) for it in (given.files, given.param, given.set, given.define, given.include, given.cells))
    files, parameters, settings, defines, includes, cells = lists
    return DesignOptions(files, given.top or "", parameters, settings, defines, includes, cells, given.reader, given.by_modules)


def run(given: argparse.Namespace) -> int:
    how, design = options_of(given), design_of(given)
    sources = sources_of(design)
    base = file_name(sources.top)
    files = [os.path.normpath(f"{given.out}/{base}{end}") for end in (".blif", ".par", END)]
    if given.recipe:
        steps = recipe(sources, preparation_of(how), files[0], f"{base}.registers.json", f"{base}.json")
        print(script_text(steps), end="")
        return 0
    with work_folder() as folder:
        made = make(design, how, folder)
        try:
            os.makedirs(given.out, exist_ok=True)
            refuse_links(files)
            shutil.copyfile(f"{folder}/netlist.blif", files[0])
        except OSError as error:
            raise Fault(f"{error.filename or given.out}: {error.strerror}") from None
    write_text(files[1], parameter_list(made.parameters))
    write_text(files[2], made.ports_text)
    values = ", ".join(f"{bus.name}={bus.text(bus.number(made.parameters))}" for bus in buses_of(made.parameters, made.ports).values())
    print(f"{files[0]}: {made.summary}")
    print(f"{files[1]}: {values or 'no parameters'}")
    if made.found:
        best = f"{made.found.best.name}, the best of {len(made.found.trials)} for {how.aim} at K {made.found.best.k}"
        print(f"preparation {best}: {sizes(made.found.best)} with {RULE_NAMES[made.found.best.rule]}")
    tables = made.tables or (made.found.best_trial.sums if made.found else None)
    if tables:
        print(f"sums with parameters are tables ({tables.told}); shown by {tables.shown}")
    return 0
