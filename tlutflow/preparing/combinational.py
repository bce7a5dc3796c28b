"""The logic of a netlist without its flip-flops, as ABC prepares and compares it, and the netlist that it goes back into.

Each flip-flop's output is an input of the logic, and each next state is an output. So names, initial values and the clock stay by the
way the netlist is put together, and a comparison of the logic alone shows that two netlists are the same cycle by cycle.
"""

from __future__ import annotations

from dataclasses import dataclass

from tlutflow.abc_form import cover_lines, latch_line
from tlutflow.faults import Fault
from tlutflow.netlist import Cover, Latch, Model, parse_library


@dataclass(frozen=True)
class Logic:
    """The logic of a flat model: the nets that it reads, and those that the outside reads and that covers drive."""

    model: Model
    inputs: list[str]
    roots: list[str]


def logic_of(model: Model) -> Logic:
    """The logic of a flat model."""
    states = [latch.state for latch in model.latches]
    clocks = {*model.clocks, *(latch.control for latch in model.latches if latch.control)}
    inputs = [name for name in model.all_inputs() if name not in clocks] + states
    ends = dict.fromkeys([*model.outputs, *(latch.source for latch in model.latches)])
    outside = {*inputs, *clocks}
    return Logic(model, inputs, [net for net in ends if net not in outside])


def logic_text(model: Model, inputs: list[str], ends: list[str]) -> str:
    """Some nets of a model as functions of others, in BLIF with plain names: `iN` and `oN` are the inputs and the ends at these places."""
    names = {net: f"i{place}" for place, net in enumerate(inputs)}
    for place, cover in enumerate(model.covers):
        names.setdefault(cover.output, f"n{place}")
    lines = [".model logic", " ".join([".inputs", *(f"i{place}" for place in range(len(inputs)))])]
    lines.append(" ".join([".outputs", *(f"o{place}" for place in range(len(ends)))]))
    try:
        for cover in model.covers:
            lines += cover_lines(Cover([names[net] for net in cover.inputs], names[cover.output], cover.rows))
        for place, end in enumerate(ends):
            lines += cover_lines(Cover([names[end]], f"o{place}", [("1", "1")]))
    except KeyError as missing:
        raise Fault(f"nothing drives {missing.args[0]}, or it is the clock; ./tlut reports what is wrong with the netlist") from None
    return "\n".join([*lines, ".end", ""])


def compared_texts(source: Model, made: Model) -> tuple[str, str]:
    """The logic of two netlists with the same ports and flip-flops, for a comparison: all outputs, and the next state of each flip-flop."""
    inputs = logic_of(source).inputs
    ends = [[*model.outputs, *(nexts[it.state] for it in source.latches)] for model in (source, made) for nexts in [next_states(model)]]
    return logic_text(source, inputs, ends[0]), logic_text(made, inputs, ends[1])


def next_states(model: Model) -> dict[str, str]:
    """The net of the next state of each flip-flop."""
    return {latch.state: latch.source for latch in model.latches}


def netlist_text(logic: Logic, prepared: str, file: str) -> str:
    """The netlist whose logic is what ABC wrote for it; `file` is its name in a fault."""
    model, made = logic.model, parse_library(prepared, file).main
    names = {f"i{place}": net for place, net in enumerate(logic.inputs)}
    names.update({f"o{place}": net for place, net in enumerate(logic.roots)})
    mark = free_mark({*model.all_inputs(), *names.values()})
    for place, cover in enumerate(made.covers):
        names.setdefault(cover.output, f"{mark}{place}")
    return model_text(model, [Cover([names[net] for net in cover.inputs], names[cover.output], cover.rows) for cover in made.covers])


def model_text(model: Model, covers: list[Cover]) -> str:
    """A netlist with the ports and flip-flops of a model, and with other logic."""
    lines = [f".model {model.name}", " ".join([".inputs", *model.inputs])]
    lines += [" ".join([".clock", *model.clocks])] if model.clocks else []
    lines += [" ".join([".outputs", *model.outputs]), *(latch_lines(model.latches))]
    for cover in covers:
        lines += cover_lines(cover)
    return "\n".join([*lines, ".end", ""])


def latch_lines(latches: list[Latch]) -> list[str]:
    """The lines of flip-flops; one without an initial value has none here either."""
    return [latch_line(it) if it.init in "01" else latch_line(it).rsplit(" ", 1)[0] + f" {it.init}" for it in latches]


def free_mark(taken: set[str]) -> str:
    """What no name begins with."""
    mark = "n"
    while any(name.startswith(mark) and name[len(mark) :].isdigit() for name in taken):
        mark += "_"
    return mark


def interface_difference(source: Model, made: Model) -> str:
    """How the ports or flip-flops of two netlists differ, or an empty text."""
    for what, left, right in (
        ("inputs", source.all_inputs(), made.all_inputs()),
        ("outputs", source.outputs, made.outputs),
        ("flip-flops", shape(source), shape(made)),
    ):
        if left != right:
            return f"its {what} differ from the source's"
    return ""


def shape(model: Model) -> list[tuple[str, str, int]]:
    """The flip-flops in an order of their own: the state, the control and the initial value of each."""
    return sorted((it.state, it.control or "", it.start) for it in model.latches)
