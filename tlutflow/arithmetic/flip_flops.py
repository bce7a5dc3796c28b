"""The flip-flops of a netlist whose sums were replaced, made those of its source.

Yosys merges flip-flops that it finds to have the same value, and removes those that it finds to be constant. It finds others where sums are
tables. Here each flip-flop of the source is there again, and one that the source has merged with another one is that one. That this leaves the
outputs and next states as they are is compared afterwards.
"""

from __future__ import annotations

from typing import Any

from tlutflow.faults import Fault
from tlutflow.netlist import Cover, Latch, Model
from tlutflow.verilog.design_json import Design

# The nets of the constants in BLIF that Yosys writes.
CONSTANTS = {"0": "$false", "1": "$true"}


def bits_by_name(design: Design) -> dict[str, Any]:
    """The bit of each net's name."""
    return {name: bit for net in design.nets.values() for name, bit in zip(net.bus.nets, net.bits)}


def with_flip_flops(made: Model, source: Model, made_design: Design, source_design: Design) -> Model:
    """A netlist with the flip-flops of its source, in their order. The designs have the names of both after synthesis."""
    there, wanted = {it.state: it for it in made.latches}, {it.state for it in source.latches}
    bits, others = bits_by_name(made_design), bits_by_name(source_design)
    nets = {bits[state]: latch.source for state, latch in there.items() if state in bits}
    states = {others[state]: state for state in wanted if state in others}
    merged = {state: alias_of(state, others, states) for state in there if state not in wanted}
    latches = [Latch(there[it.state].source if it.state in there else next_state(it, bits, nets), it.state, it.control, it.init) for it in source.latches]
    covers = [it for it in made.covers if it.output not in wanted]
    covers += [Cover([state], name, [("1", "1")]) if state not in CONSTANTS.values() else constant_cover(name, state) for name, state in merged.items()]
    return Model(made.name, source.inputs, source.outputs, source.clocks, with_constants(covers, latches), latches)


def alias_of(state: str, bits: dict[str, Any], states: dict[Any, str]) -> str:
    """The flip-flop, or the constant, that a flip-flop is in the source."""
    bit = bits.get(state)
    if bit in CONSTANTS:
        return CONSTANTS[str(bit)]
    if bit not in states:
        raise Fault(f"its flip-flop {state} isn't in the source")
    return states[bit]


def next_state(latch: Latch, bits: dict[str, Any], nets: dict[Any, str]) -> str:
    """The next state of a flip-flop that was removed: a constant, or that of the one which has its value."""
    bit = bits.get(latch.state)
    if bit in CONSTANTS:
        return CONSTANTS[str(bit)]
    if bit not in nets:
        raise Fault(f"it lacks the flip-flop {latch.state}")
    return nets[bit]


def constant_cover(net: str, constant: str) -> Cover:
    """A net that is a constant."""
    return Cover([], net, [("", "1")] if constant == "$true" else [])


def with_constants(covers: list[Cover], latches: list[Latch]) -> list[Cover]:
    """Covers with those of the constants that flip-flops read."""
    driven = {it.output for it in covers}
    return covers + [constant_cover(net, net) for net in CONSTANTS.values() if net not in driven and any(it.source == net for it in latches)]
