"""`flow hdl`: a mapped circuit in Verilog, with a port that changes its configuration."""

from __future__ import annotations

import argparse
import sys

from tlutflow import tools
from tlutflow.build_files import make_folder
from tlutflow.circuit import read_circuit
from tlutflow.devices.families import FAMILIES, told
from tlutflow.faults import Fault
from tlutflow.patience import patience
from tlutflow.plain_names import temporary_folder
from tlutflow.stages.hardware import Module, module_of, read_recording, simulated, write_module
from tlutflow.text import read_input
from tlutflow.verilog.hdl import PORTS, TARGETS, Way
from tlutflow.verilog.store import KINDS

HELP = "a mapped circuit in Verilog, with a port that changes its configuration"
DESCRIPTION = """Writes a mapped circuit as Verilog whose configuration can be changed while it runs. LUTs whose bits are all constants are plain
functions. The targets are

  generic    bits that change are flip-flops, for any device
  xilinx     LUTs with bits that change are CFGLUT5, two for six leaves; two LUTs share a site if at most four leaves reach it, and two
             LUTs of constants if at most five do (LUT6_2)

and the ports

  chain      all bits are shifted in and then shown at once by cfg_commit; on xilinx there is no cfg_commit, and the circuit can't be
             used while bits are shifted (default)
  random     one bit at a time, by its number; a write takes 32 or 64 periods on xilinx. With --word one word at a time; on xilinx --word 4
             has one enable for the four CFGLUT5 of a slice, which are written together

--device chooses these for a family of devices, and stderr says what it chose.

`flow stream` prints what to send for new values of the parameters.

With --out the files go to FOLDER: NAME.v; NAME_bench.v, a testbench that plays a file of events and prints the lines of a run; and with
--script, for which stdin has what `tlut run` or `tlut pace` printed, NAME.events, the events of that run. --simulate also runs the
testbench in Icarus Verilog, and compares its lines with the run's. With --netlist it plays a synthesised netlist instead of NAME.v,
and compares the outputs of each cycle."""
EXAMPLE = """examples:
  flow hdl fir_t.blif fir.ppc > fir_mapped.v
  tlut run 4 fir.blif fir.par fir.scr 0 0 | flow hdl fir_t.blif fir.ppc --out sim --script fir.scr --simulate"""


def add_family_word(parser: argparse.ArgumentParser) -> None:
    """The argument that names a family of devices."""
    parser.add_argument("--device", choices=list(FAMILIES), help="a family of devices, for which everything is chosen that no other option chooses")


def add_device_words(parser: argparse.ArgumentParser) -> None:
    """The arguments that choose the LUTs and the port."""
    add_family_word(parser)
    parser.add_argument("--target", choices=TARGETS, help="how LUTs with changing bits are implemented (default: generic)")
    parser.add_argument("--port", choices=PORTS, help="how bits are changed (default: chain)")
    kinds = "which bits can be written: those that read a parameter (changing, the default), the same with one flip-flop for all bits of one function (distinct), or all"
    parser.add_argument("--bits", choices=KINDS, help=kinds)
    parser.add_argument("--regions", metavar="N", type=int, default=1, help="with --port chain: one chain for each region of addresses, as `tlut run` has them for N ports")
    parser.add_argument("--word", metavar="N", type=int, help="with --port random: write words of N bits, which needs fewer LUTs (default: 1)")
    parser.add_argument("--no-pairs", action="store_true", help="with --target xilinx: no two LUTs share a site")


def way_of(given: argparse.Namespace) -> Way:
    """What these words choose."""
    family = FAMILIES.get(given.device or "")
    target = given.target or (family.target if family else "generic")
    usual = family if family and family.target == target else FAMILIES["generic"] if given.device else None
    port = given.port or (usual.port if usual else "chain")
    bits = given.bits or (usual.bits if usual else "changing")
    word = usual.word if usual and port == "random" else 1
    return Way(target, port, bits, given.regions, word if given.word is None else given.word, not given.no_pairs)


def tell_way(given: argparse.Namespace) -> None:
    """Says on standard error what a device chose."""
    if given.device:
        words = " ".join(way_of(given).words)
        print(f"{given.prog}: {told(FAMILIES[given.device], words)}", file=sys.stderr)


def add_words(parser: argparse.ArgumentParser) -> None:
    parser.add_argument("template", metavar="TEMPLATE", help="the template that `tlut map` wrote")
    parser.add_argument("pack", metavar="PACK", help="its pack")
    add_device_words(parser)
    parser.add_argument("--module", metavar="NAME", help="the module's name; without it that of the circuit and _mapped")
    parser.add_argument("--out", metavar="FOLDER", help="a folder for the module, its testbench and its events")
    parser.add_argument("--script", metavar="SCRIPT", help="the script of the run whose output is on stdin")
    parser.add_argument("--simulate", action="store_true", help="with --script: run the testbench, and compare")
    parser.add_argument("--netlist", metavar="FILE.v", action="append", default=[], help="with --simulate: play this netlist (repeat it, as for its cells)")


def play(given: argparse.Namespace, module: Module, folder: str) -> None:
    """Writes the files, and runs the testbench if asked."""
    recording = read_recording(given.script, module.circuit.inputs, read_input(), "standard input") if given.script else None
    write_module(module, folder, recording)
    if recording and given.simulate:
        with patience(given.prog, "Icarus Verilog"):
            told = simulated(module, folder, recording, given.netlist)
        print(told)


def run(given: argparse.Namespace) -> int:
    circuit = read_circuit(given.template, given.pack)
    if given.simulate and not given.script:
        raise Fault("--simulate needs --script, and the run's output on stdin")
    if given.simulate:
        tools.need(tools.ICARUS, "a simulation")
    if given.netlist and not given.simulate:
        raise Fault("--netlist needs --simulate")
    tell_way(given)
    if given.out:
        make_folder(given.out)
        play(given, module_of(circuit, way_of(given), given.module), given.out)
    elif given.simulate:
        with temporary_folder() as folder:
            play(given, module_of(circuit, way_of(given), given.module), folder)
    elif given.script:
        raise Fault("--script needs --out, or --simulate")
    else:
        print(module_of(circuit, way_of(given), given.module).text, end="")
    return 0
