"""Combinational loops: nets that depend on themselves through covers."""

from __future__ import annotations

from tlutflow.faults import Fault
from tlutflow.netlist import Model
from tlutflow.verilog.design_json import Design


def loop_of(model: Model) -> list[str]:
    """The nets of a combinational loop of a flat model, each one read by the next; empty if it has none."""
    reads = {cover.output: cover.inputs for cover in model.covers}
    done: set[str] = set()
    for start in reads:
        path = [] if start in done else [start]
        waiting = {net: iter(reads[net]) for net in path}
        while path:
            below = next((it for it in waiting[path[-1]] if it in reads and it not in done), None)
            if below is None:
                done.add(path[-1])
                del waiting[path.pop()]
            elif below in waiting:
                return path[path.index(below) :][::-1]
            else:
                path.append(below)
                waiting[below] = iter(reads[below])
    return []


def refuse_loop(model: Model, design: Design) -> None:
    """Refuses a combinational loop of a design's netlist, with the names and lines of its nets in the source."""
    loop = loop_of(model)
    if not loop:
        return
    places = {title: net.place for net in design.nets.values() if not net.is_hidden for title in net.bus.nets}
    named = [f"{net}{places[net]}" for net in loop if net in places] or loop
    through = f" through {', '.join(named[1:4])}{' and others' if len(named) > 4 else ''}" if len(named) > 1 else ""
    raise Fault(f"{named[0]} depends on itself{through} without a register between: insert one, or assign a value in each branch")
