"""`flow check`: a written netlist against its source by ABC, or the output of a run against a player of the source."""

from __future__ import annotations

import argparse

from tlutflow.faults import Fault
from tlutflow.netlist import read_library
from tlutflow.parameters import interface_of, read_parameters
from tlutflow.patience import patience
from tlutflow.runs.output import parse_output
from tlutflow.runs.script import read_script
from tlutflow.runs.source_player import SourcePlayer
from tlutflow.runs.waveform import check_end, pairs
from tlutflow.stages.equality import Pair, compare
from tlutflow.text import count, read_input

HELP = "a written netlist or a run against its source"
DESCRIPTION = """With WRITTEN: uses ABC to show that a netlist which tlut wrote is equal to its source circuit: `cec`, latch by
latch, or `dsec` if there are latches and that decides nothing.

  --params PARAMS   WRITTEN is what `tlut spec` wrote for this list: its parameters are constants in the source
  --pack PACK       WRITTEN is the template that `tlut map` wrote with this pack: each bit gets its function of the parameters, which
                    stay inputs of both, so the two are compared under all values of the parameters

With --script and --params and without WRITTEN: stdin has what `tlut run` or `tlut pace` printed for the script. The source is played
by its own logic, and the outputs and states of each cycle are compared, up to the first upset.

Both files go to ABC in a form that it reads: it takes no cover with inputs and without rows, and no latch without an init.
The status is 0 if they are equal, and 1 if they differ, ABC doesn't decide it, or the output ends before the script."""
EXAMPLE = """examples:
  tlut spec 4 fir.blif fir.par fir_spec.blif && flow check fir.blif fir_spec.blif --params fir.par
  tlut map 4 fir.blif fir.par fir_t.blif fir.ppc && flow check fir.blif fir_t.blif --pack fir.ppc
  tlut run 4 fir.blif fir.par fir.scr 0 0 | flow check fir.blif --params fir.par --script fir.scr"""


def add_words(parser: argparse.ArgumentParser) -> None:
    parser.add_argument("source", metavar="SOURCE", help="the netlist that it was mapped from")
    parser.add_argument("written", metavar="WRITTEN", nargs="?", help="a netlist that was written, or a template with --pack")
    which = parser.add_mutually_exclusive_group()
    which.add_argument("--params", metavar="PARAMS", help="the list that spec was given")
    which.add_argument("--pack", metavar="PACK", help="the pack that map wrote")
    parser.add_argument("--script", metavar="SCRIPT", help="the script of the run whose output is on stdin")
    parser.add_argument("--seconds", type=float, default=600, help="processor time that ABC may take (default: 600)")


def check_run(given: argparse.Namespace) -> int:
    """Compares the output of a run with the source."""
    library, parameters = read_library(given.source), read_parameters(given.params)
    interface = interface_of(library, parameters, given.params)
    events = read_script(given.script, interface.regular)
    output = parse_output(read_input(), "standard input")
    player = SourcePlayer(library, parameters, interface.regular)
    compared = 0
    for number, (event, played) in enumerate(pairs(events, output), 1):
        if event.word == "upset":
            print(f"{count(compared, 'cycle')} before the first upset, all as the source's")
            return 0
        if event.word in ("set", "ask"):
            player.parameters.update(event.values)
        if played.word == "cycle":
            wanted = player.cycle(event.values)
            if (played.outputs, played.states) != wanted:
                raise Fault(f"event {number} printed `{played.text[:60]}`, but the source has {wanted[0][:60] or '-'} {wanted[1][:60] or '-'}")
            compared += 1
    check_end(len(events), output)
    print(f"{count(compared, 'cycle')}, all as the source's")
    return 0


def run(given: argparse.Namespace) -> int:
    if given.script:
        if given.written or given.pack or not given.params:
            raise Fault("--script needs --params, and excludes WRITTEN")
        return check_run(given)
    if not given.written:
        raise Fault("give WRITTEN, or --script with the output of a run on stdin")
    with patience(given.prog, "ABC"):
        print(compare(Pair(given.source, given.written, given.params, given.pack), given.seconds))
    return 0
