"""`flow build`: from a design to all files and a report, in one command."""

from __future__ import annotations

import argparse
from dataclasses import dataclass

from tlutflow.build_files import refuse_foreign_page, refuse_links
from tlutflow.building import Build
from tlutflow.built import Built
from tlutflow.circuit import Circuit, read_circuit
from tlutflow.commands.hdl import add_device_words, way_of
from tlutflow.commands.prepare import add_shared_words, options_of
from tlutflow.commands.show import add_view_words, view_of
from tlutflow.commands.verilog import add_source_words, design_of
from tlutflow.faults import Fault
from tlutflow.netlist import read_library
from tlutflow.options import BuildOptions
from tlutflow.reports.circuit_view import with_names
from tlutflow.reports.report_page import page
from tlutflow.steps import RECORD
from tlutflow.text import count, write_text

HELP = "from a design to all files and a report, in one command"
DESCRIPTION = """Creates everything for a design in FOLDER: the prepared netlist and its parameter list, the mapped netlist (template) and its pack, the netlist
for the initial values, a certificate of the depth, Verilog with a write port and its testbench, a picture, and with --script the run of
the script with its waveform. FOLDER/index.html is the report, one file that any browser opens without a network.

FILES are a design in Verilog (with --top and --param, as for flow verilog), or NETLIST PARAMS as tlut reads them. The preparation is the
one that measures best (see flow prepare --help), and the rule, tlut or tlut --compact, is the better one for the same aim. A second call
repeats only what has changed; it doesn't look at files that the Verilog includes, so use --again after you edit one of these.

--device names a family of devices. K, the rule, the port and the preparation are then those of which the device counts the least, unless
options choose otherwise; the output says what was chosen. If Yosys is installed, it counts the circuit on the device, and beside it the
source with its parameters in registers.

Steps of programs that aren't installed are skipped, and the report says so: ABC compares, Graphviz draws, and Icarus Verilog plays the script."""
EXAMPLE = """examples:
  flow build fir.v --top fir --param c0=5 --param c1=3 --param c2=6 --k 4 --out made
  flow build fir.v --top fir --param c0=5 --param c1=3 --param c2=6 --device xilinx7 --out made
  flow build fir.blif fir.par --k 6 --for luts --script fir.scr --out made"""


def add_words(parser: argparse.ArgumentParser) -> None:
    parser.add_argument("files", metavar="FILE", nargs="+", help="the design's files in Verilog, or NETLIST PARAMS")
    parser.add_argument("--top", metavar="TOP", help="the module to take, for Verilog")
    parser.add_argument("--param", metavar="PORT=VALUE", action="append", default=[], help="an input port that is a parameter, for Verilog (repeat it)")
    parser.add_argument("--out", metavar="FOLDER", required=True, help="where the files go")
    parser.add_argument("--script", metavar="SCRIPT", help="a script to run: events with values of buses, as for flow script, or as tlut run plays it")
    add_view_words(parser)
    add_device_words(parser)
    add_source_words(parser)
    parser.add_argument("--again", action="store_true", help="create everything again")
    add_shared_words(parser, 4)


def check(given: argparse.Namespace) -> None:
    """Refuses arguments that don't belong together."""
    if not given.files:
        raise Fault("a build needs the files of a design in Verilog, or a netlist and its parameter list")
    if given.files[0].endswith((".v", ".sv", ".vh")):
        if not given.top:
            raise Fault("--top names the module of a design in Verilog")
    elif len(given.files) != 2 or given.param or given.top:
        raise Fault("a netlist is followed by its parameter list, NETLIST PARAMS, and takes neither --top nor --param; Verilog files end in .v or .sv")
    if view_of(given).words and not given.script:
        raise Fault("--signed, --hex and --states show the run of a --script")


@dataclass(frozen=True)
class Made:
    """What a build made: what its page shows, the mapped circuit, and the path of the page."""

    built: Built
    circuit: Circuit
    report: str


def build_options(given: argparse.Namespace) -> BuildOptions:
    """What these arguments choose."""
    check(given)
    return BuildOptions(design_of(given), given.out, options_of(given), way_of(given), given.bits, given.script, view_of(given), given.again)


def make(given: argparse.Namespace) -> Made:
    """Builds a design, and writes the page."""
    options = build_options(given)
    report = f"{given.out}/index.html"
    refuse_links([report, f"{given.out}/{RECORD}"])
    refuse_foreign_page(report)
    build = Build(options)
    built = build.all()
    circuit = with_names(read_circuit(build.path("_t.blif"), build.path(".ppc")), read_library(build.path(".blif")))
    write_text(report, page(built, circuit))
    return Made(built, circuit, report)


def run(given: argparse.Namespace) -> int:
    made = make(given)
    built, circuit = made.built, made.circuit
    best = built.preparation.get("best")
    prepared = f", preparation {best['name']}" if best else ""
    print(f"{built.name}: {count(len(circuit.luts), 'LUT')}, depth {circuit.depth}, {count(len(circuit.pack.bits), 'bit')} at K {built.k}{prepared}")
    for part in ("told", "text"):
        if part in built.device:
            print(built.device[part])
    for what, by, told, state in built.checks:
        print(f"{'checked' if state == 'ok' else 'not shown'}: {what} ({by}: {told})")
    print(f"{made.report}: the report; open it in a browser")
    return 0
