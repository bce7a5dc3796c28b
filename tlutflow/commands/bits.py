"""`flow bits`: a script played by `tlut bits` and by the library for host programs, and their lines compared."""

from __future__ import annotations

import argparse

from tlutflow import tools
from tlutflow.faults import Fault
from tlutflow.host import Host
from tlutflow.host_library import library
from tlutflow.host_player import played
from tlutflow.runs.script import read_script
from tlutflow.text import physical_lines

HELP = "a script on a pack, played by tlut and by the library for host programs"
DESCRIPTION = """Plays a script on a pack by `tlut bits` and by the library for host programs (docs/host.md), and prints the lines of `tlut bits`.
Fails at the first line in which the library differs. The library is the one that --library or the environment variable
TLUT_HOST_LIBRARY names, or else the one that was built (make -C include) or is installed."""
EXAMPLE = """examples:
  flow bits fir.ppc fir.scr
  flow bits fir.ppc fir.scr --library /usr/local/lib/libtlut_host.so.1"""


def add_words(parser: argparse.ArgumentParser) -> None:
    parser.add_argument("pack", metavar="PACK", help="the pack")
    parser.add_argument("script", metavar="SCRIPT", help="the script, without cycles")
    parser.add_argument("--tlut", metavar="PROGRAM", help="the mapper (default: the one beside the companion)")
    parser.add_argument("--library", metavar="FILE", help="the library for host programs (default: the one that was built or is installed)")


def run(given: argparse.Namespace) -> int:
    ran = tools.run([tools.tlut(given.tlut), "bits", given.pack, given.script])
    if ran.returncode:
        raise Fault(ran.stderr.strip())
    lines = physical_lines(ran.stdout[:-1])
    with Host(given.pack, library(given.library)) as host:
        for number, (line, other) in enumerate(zip(lines, played(host, read_script(given.script, []))), 1):
            print(line)
            if line != other:
                raise Fault(f"line {number} by the library: {other}")
    return 0
