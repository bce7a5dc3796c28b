"""`flow explain`: what a fault line means."""

from __future__ import annotations

import argparse

from tlutflow.explanations import Explanation
from tlutflow.fault_line import FaultLine, parse_fault
from tlutflow.faults import Fault
from tlutflow.refusals import explanation_of, head_of
from tlutflow.text import logical_lines, physical_lines, read_input, read_text

HELP = "what a fault line means, and what helps"
DESCRIPTION = """Reads fault lines of tlut on stdin, and prints for each: the line of the file, if the file is there; what is wanted; the usual cause; and
the remedy. All other lines of stdin are printed unchanged."""
EXAMPLE = """example:
  tlut run 4 n.blif n.par n.scr 0 0 2>&1 | flow explain"""

# Of the faults that report nets and no line: the commands in which the net is looked for, and its place in them.
PLACES = {"F7": (".latch",), "F8": (".latch",), "F9": (".names", ".outputs"), "F10": (".names",)}
LONGEST = 100


def add_words(parser: argparse.ArgumentParser) -> None:
    del parser


def lines_to_show(fault: FaultLine) -> list[str]:
    """The lines of the file that the fault speaks of, with their numbers. None where the file can't be read."""
    try:
        text = read_text(fault.file)
    except Fault:
        return []
    numbers = [fault.line] if fault.line else net_lines(fault, text)
    physical = physical_lines(text)
    return [f"{number:6} | {shortened(physical[number - 1])}" for number in numbers if 0 < number <= len(physical)]


def net_lines(fault: FaultLine, text: str) -> list[int]:
    """The first line that has the last net that the fault names."""
    words = PLACES.get(fault.code, ())
    if not words or not fault.details:
        return []
    net = fault.details.split(" ")[-1].rsplit("/", 1)[-1]
    found = [line.number for line in logical_lines(text) if line.tokens[0] in words and net in line.tokens[1:]]
    return found[:1]


def shortened(line: str) -> str:
    """A line that isn't too long to be read."""
    return line if len(line) <= LONGEST else line[:LONGEST] + ".."


def told(fault: FaultLine, known: Explanation) -> list[str]:
    """The lines of an explanation."""
    return [head_of(fault), *lines_to_show(fault), f"  wanted  {known.wants}", f"  cause   {known.cause}", f"  remedy  {known.remedy}"]


def run(given: argparse.Namespace) -> int:
    del given
    text = read_input()
    lines = physical_lines(text[:-1] if text.endswith("\n") else text) if text else []
    for line in lines:
        fault = parse_fault(line)
        known = explanation_of(fault) if fault else None
        print("\n".join(told(fault, known)) if fault and known else line)
    return 0
