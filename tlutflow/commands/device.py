"""`flow device`: a netlist of `tlut spec`, to the tools of a device."""

from __future__ import annotations

import argparse
import os
import re
import shlex
import sys

from tlutflow import tools
from tlutflow.build_files import copy, make_folder, refuse_links
from tlutflow.circuit import is_template
from tlutflow.device import PART, PLACERS, WIDEST, device_recipe
from tlutflow.faults import Fault
from tlutflow.netlist import read_library
from tlutflow.patience import patience
from tlutflow.plain_names import PlainNames, work_folder
from tlutflow.port_file import file_name
from tlutflow.text import write_text
from tlutflow.verilog.recipe import UnquotableName, script_text
from tlutflow.yosys import run_yosys

HELP = "a netlist of `tlut spec`, to a device's LUTs and flip-flops, by Yosys and nextpnr"
DESCRIPTION = """Turns each LUT of a netlist that `tlut spec` wrote into one LUT of a device, and places and routes it if nextpnr is installed.

In FOLDER it writes NAME.ys, the script for Yosys with a reason for each line, and NAME.json; for xilinx also NAME.edif, for the vendor's
tools; and if nextpnr is installed NAME.asc (ice40) or NAME.config (ecp5). An iCE40 has LUTs of four inputs, so use K 4 there.

The flip-flops of an iCE40 start at 0. A register that starts at 1 gets an inverter before and after it, and these become LUTs."""
EXAMPLE = """example:
  tlut spec 4 fir.blif fir.par fir_spec.blif && flow device fir_spec.blif --target ice40 --out made"""


def add_words(parser: argparse.ArgumentParser) -> None:
    parser.add_argument("netlist", metavar="NETLIST", help="what `tlut spec` wrote")
    parser.add_argument("--target", choices=list(WIDEST), required=True, help="the device's family")
    parser.add_argument("--out", metavar="FOLDER", default=".", help="where the files go (default: the current directory)")
    usual = "; ".join(f"{key}: {' '.join(words)}" for key, words in PART.items())
    parser.add_argument("--part", metavar="WORDS", help=f"arguments of nextpnr that select the part (default: {usual})")
    parser.add_argument("--recipe", action="store_true", help="print the script for Yosys, and create nothing")
    parser.add_argument("--no-place", action="store_true", help="don't run nextpnr")


def check(path: str, target: str) -> str:
    """Refuses what the device has no cells for, and returns the circuit's name."""
    library = read_library(path)
    if is_template(library):
        raise Fault(f"{path} is a template, whose configuration bits are inputs: `tlut spec` writes the netlist for a device, and `flow hdl` the template as Verilog")
    if library.main.subckts:
        raise Fault(f"{path}: it instantiates models; `tlut spec` writes a netlist without instances")
    widest = max(library.main.covers, key=lambda cover: len(cover.inputs), default=None)
    if widest and len(widest.inputs) > WIDEST[target]:
        raise Fault(f"{path}: {widest.output} has {len(widest.inputs)} inputs, and a LUT of {target} {WIDEST[target]}: map it with K {WIDEST[target]}")
    return library.main.name


def cells_of(told: str) -> str:
    """What Yosys's `stat` counted, in one line."""
    last = told.rpartition("Number of cells:")[2].partition("\n\n")[0]
    return ", ".join(f"{number} {kind}" for kind, number in re.findall(r"^ +([\w$]+) +(\d+)$", last, re.MULTILINE)) or "no cells"


def place(given: argparse.Namespace, base: str) -> None:
    """Places and routes, and returns what nextpnr reported."""
    placer = PLACERS.get(given.target)
    if placer is None or given.no_place:
        return
    program = tools.find(placer.names)
    if program is None:
        print(f"{tools.TITLES[placer.names]} isn't installed, so nothing was placed")
        return
    part = shlex.split(given.part) if given.part else list(PART[given.target])
    with patience(given.prog, "nextpnr"):
        ran = tools.run([program, *part, *placer.words, "--json", f"{base}.json", placer.out, base + placer.end])
    told = (ran.stdout + ran.stderr).splitlines()
    if ran.returncode:
        errors = [line for line in told if line.startswith("ERROR")] or told[-1:] or ["it failed"]
        raise Fault(f"nextpnr: {errors[0]}")
    used = next((line for line in told if re.search(r"(ICESTORM_LC|TRELLIS_COMB|TRELLIS_SLICE):", line)), "")
    cells = re.search(r"(\w+): +(\d+)/ *(\d+)", used)
    speed = re.findall(r"Max frequency for clock .*?: ([\d.]+) MHz", "\n".join(told))
    parts = [f"{cells[2]} of {cells[3]} {cells[1]}" if cells else "placed and routed", *([f"{speed[-1]} MHz"] if speed else [])]
    print(f"{base}{placer.end}: {', '.join(parts)}")


def write_script(given: argparse.Namespace, base: str) -> None:
    """Writes the script with the names that were given, for those who want to run or change it. A script can't hold every name."""
    try:
        write_text(f"{base}.ys", script_text(device_recipe(given.netlist, given.target, base)))
    except UnquotableName as why:
        print(f"{given.prog}: {base}.ys isn't written: {why}", file=sys.stderr)


def synthesise(given: argparse.Namespace, base: str) -> str:
    """Runs Yosys under plain names, keeps its files, and returns what it printed."""
    with work_folder() as room:
        names, made = PlainNames(f"{room}/names"), f"{room}/made"
        with patience(given.prog, "Yosys"), names.told():
            told = run_yosys(device_recipe(names.path(given.netlist), given.target, made), room, "a device's netlist", is_silent=False)
        for end in (".json", ".edif"):
            if os.path.exists(made + end):
                copy(made + end, base + end)
    return told


def run(given: argparse.Namespace) -> int:
    name = file_name(check(given.netlist, given.target))
    base = os.path.normpath(f"{given.out}/{name}")
    if given.recipe:
        print(script_text(device_recipe(given.netlist, given.target, base)), end="")
        return 0
    tools.need(tools.YOSYS, "a device's netlist")
    make_folder(given.out)
    refuse_links([f"{base}{end}" for end in (".ys", ".json", ".edif", ".asc", ".config")])
    write_script(given, base)
    print(f"{base}.json: {cells_of(synthesise(given, base))}")
    place(given, base)
    return 0
