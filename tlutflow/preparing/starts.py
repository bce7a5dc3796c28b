"""What preparations start from: the logic of a netlist, or of one of its design's netlists in which sums with parameters are tables."""

from __future__ import annotations

from dataclasses import dataclass
from typing import Optional

from tlutflow.netlist import Model
from tlutflow.preparations import Preparation
from tlutflow.preparing.combinational import Logic, logic_text


@dataclass(frozen=True)
class SumStart:
    """A netlist of the design whose sums with parameters are tables for one K, from which preparations start: the style, the flat model, what the
    sums became, and how it was shown to be the design."""

    style: str
    k: int
    model: Model
    told: str
    shown: str


@dataclass(frozen=True)
class Start:
    """Logic that preparations start from, what the names of their trials begin with, and the netlist with tables that it is or comes from."""

    name: str
    logic: Logic
    sums: Optional[SumStart] = None

    @property
    def key(self) -> str:
        """A name that no other start has."""
        return self.name + (f"{self.sums.style}{self.sums.k}" if self.sums else "")

    def text(self) -> str:
        """The logic in BLIF."""
        return logic_text(self.logic.model, self.logic.inputs, self.logic.roots)


def starts_with(preparation: Preparation, start: Start) -> bool:
    """Whether a preparation starts from this logic: one of sums as tables from the netlist in its style, others from the source, and in further
    rounds each one that isn't of sums from what was best."""
    if start.name.endswith("+") or start.sums is None:
        return not preparation.sums
    return preparation.sums == start.sums.style
