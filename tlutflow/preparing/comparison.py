"""Comparisons of logic by ABC's `cec`: of a whole netlist, or of each of its parts."""

from __future__ import annotations

from dataclasses import dataclass

from tlutflow import tools
from tlutflow.faults import Fault, Undecided
from tlutflow.netlist import Model
from tlutflow.preparing.combinational import compared_texts
from tlutflow.text import write_text

WHOLE = "ABC cec"
BY_PARTS = "ABC cec, part by part"


@dataclass(frozen=True)
class Comparer:
    """The program ABC, and the processor time that one comparison may take."""

    abc: str
    seconds: float

    def compare(self, left: str, right: str, room: str) -> None:
        """Refuses a netlist that ABC doesn't show to be equal to its source; both in BLIF. Their files go into a folder."""
        write_text(f"{room}/left.blif", left)
        write_text(f"{room}/right.blif", right)
        ran = tools.run_abc(self.abc, "cec left.blif right.blif", room, self.seconds)
        if ran.status:
            raise tools.abc_failure(ran)
        if "NOT EQUIVALENT" in ran.told:
            raise Fault("it differs from the source (ABC cec)")
        if "are equivalent" not in ran.told:
            raise Undecided("ABC cec didn't decide whether it is the source")

    def compare_whole(self, source: Model, made: Model, room: str, are_parts_equal: bool) -> str:
        """Compares all outputs and next states of two netlists, and returns how they were shown to be equal: if ABC doesn't decide it in time,
        by the parts, where these were."""
        try:
            self.compare(*compared_texts(source, made), room)
        except Undecided:
            if not are_parts_equal:
                raise
            return BY_PARTS
        return WHOLE
