"""A comparison of two netlists under drawn values: all outputs and next states, in many cases at once, which are the digits of a number."""

from __future__ import annotations

import random
from dataclasses import dataclass
from typing import Optional

from tlutflow.faults import Fault
from tlutflow.netlist import Cover, Model
from tlutflow.preparing.combinational import logic_of, next_states

# So many cases are drawn. In half of them each word's bits are alike often, so that its extremes occur.
CASES = 4096


@dataclass(frozen=True)
class Difference:
    """An output or next state in which two netlists differ, and the case."""

    net: str
    case: int


def drawn(nets: list[str], seed: int, cases: int) -> dict[str, int]:
    """The value of each net in each case. The nets of a bus are neighbours in the list: in every second case a net is mostly as the one before,
    so that words are near their least and greatest values."""
    draw, found, before = random.Random(seed), {}, 0
    second = sum(1 << case for case in range(0, cases, 2))
    for net in nets:
        value, keeps = draw.getrandbits(cases), draw.getrandbits(cases) | draw.getrandbits(cases) | draw.getrandbits(cases)
        alike = second & keeps
        found[net] = before = (value & ~alike) | (before & alike)
    return found


def cover_value(cover: Cover, values: dict[str, int], ones: int) -> int:
    """The value of a cover's output in each case."""
    found, sign = 0, "1"
    for cube, sign in cover.rows:
        product = ones
        for digit, net in zip(cube, cover.inputs):
            if digit != "-":
                product &= values[net] if digit == "1" else values[net] ^ ones
        found |= product
    return found if sign == "1" else found ^ ones


def ends_of(model: Model, values: dict[str, int], ones: int) -> dict[str, int]:
    """The value of each output and next state in each case, from values of the inputs and states."""
    known, drivers = dict(values), {cover.output: cover for cover in model.covers}
    nexts = next_states(model)
    for end in [*model.outputs, *nexts.values()]:
        waiting = [end]
        while waiting:
            net = waiting[-1]
            missing = [it for it in drivers[net].inputs if it not in known] if net not in known else []
            if missing:
                waiting += missing
                continue
            waiting.pop()
            if net not in known:
                known[net] = cover_value(drivers[net], known, ones)
    return {**{f"output {net}": known[net] for net in model.outputs}, **{f"next state {state}": known[source] for state, source in nexts.items()}}


def first_difference(source: Model, made: Model, seed: int = 1, cases: int = CASES) -> Optional[Difference]:
    """Where two netlists with the same ports and flip-flops differ in drawn cases, or None."""
    inputs = logic_of(source).inputs
    values, ones = drawn(inputs, seed, cases), (1 << cases) - 1
    left, right = ends_of(source, values, ones), ends_of(made, values, ones)
    for net, value in left.items():
        if value != right[net]:
            differ = value ^ right[net]
            return Difference(net, (differ & -differ).bit_length() - 1)
    return None


def compare_samples(source: Model, made: Model) -> None:
    """Refuses a netlist that differs from its source in a drawn case."""
    found = first_difference(source, made)
    if found is not None:
        raise Fault(f"it differs from the source in {found.net} under drawn values")
