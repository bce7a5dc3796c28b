"""Netlists as ABC reads them.

ABC doesn't take a cover with inputs and no rows, and lets a latch without an init start at any value. So a cover without rows is written
without its inputs, and each latch with its start; names of `.clock` become inputs.
"""

from __future__ import annotations

from typing import Iterable

from tlutflow.faults import Fault
from tlutflow.netlist import Cover, Latch, Library, Model
from tlutflow.pack import Pack


def cover_lines(cover: Cover) -> list[str]:
    """The lines of a cover."""
    names = [*cover.inputs, cover.output] if cover.rows else [cover.output]
    return [" ".join([".names", *names]), *(" ".join(filter(None, row)) for row in cover.rows)]


def latch_line(latch: Latch) -> str:
    """The line of a latch."""
    control = ["re", latch.control] if latch.control else []
    return " ".join([".latch", latch.source, latch.state, *control, str(latch.start)])


def constant(name: str, bit: int) -> Cover:
    """A net that has one value."""
    return Cover([], name, [("", "1")] if bit else [])


def model_lines(model: Model, inputs: list[str], more: Iterable[Cover]) -> list[str]:
    """The lines of a model with these inputs and with further covers."""
    lines = [f".model {model.name}", " ".join([".inputs", *inputs]), " ".join([".outputs", *model.outputs])]
    for cover in (*model.covers, *more):
        lines += cover_lines(cover)
    lines += map(latch_line, model.latches)
    lines += [" ".join([".subckt", it.model, *(f"{formal}={actual}" for formal, actual in it.connections.items())]) for it in model.subckts]
    return [*lines, ".end"]


def abc_text(library: Library, fixed: dict[str, int], more: Iterable[Cover] = (), added: Iterable[str] = ()) -> str:
    """The text of a library in which some inputs of the main model are constants, and which has further covers and inputs there."""
    main = library.main
    inputs = [name for name in main.all_inputs() if name not in fixed] + list(added)
    lines = model_lines(main, inputs, [*(constant(name, bit) for name, bit in fixed.items()), *more])
    for model in library.models[1:]:
        lines += model_lines(model, model.all_inputs(), [])
    return "\n".join([*lines, ""])


def free_prefix(library: Library) -> str:
    """What no net of the main model begins with."""
    main = library.main
    nets = [*main.all_inputs(), *(it.output for it in main.covers), *(it.state for it in main.latches)]
    prefix = "pack"
    while any(net.startswith(prefix) for net in nets):
        prefix += "_"
    return prefix


def bit_covers(pack: Pack, bits: list[str], prefix: str) -> list[Cover]:
    """Covers that give configuration bits their functions of the parameters. Nodes have names with the prefix."""
    names = ["", *pack.parameters, *(f"{prefix}{place}" for place in range(len(pack.nodes)))]
    covers = []
    for name, pair in zip(names[pack.first_node :], pack.nodes):
        cells = "".join("01"[1 - (it & 1)] for it in pair)
        covers.append(Cover([names[it >> 1] for it in pair], name, [(cells, "1")]))
    for name, literal in zip(bits, pack.bits):
        if literal < 2:
            covers.append(constant(name, literal))
        else:
            covers.append(Cover([names[literal >> 1]], name, [("01"[1 - (literal & 1)], "1")]))
    return covers


def with_functions(template: Library, pack: Pack, file: str) -> str:
    """The text of a template whose configuration bits are functions of the parameters, which are its inputs; `file` is the pack's."""
    bits = [name for line in template.main.input_lines[1:] for name in line]
    if len(bits) != len(pack.bits):
        raise Fault(f"{template.file} has {len(bits)} configuration bits and {file} has {len(pack.bits)}: they come from different calls of map")
    main, held = template.main, set(bits)
    kept = Model(main.name, [name for name in main.inputs if name not in held], main.outputs, main.clocks, main.covers, main.latches)
    covers = bit_covers(pack, bits, free_prefix(template))
    return abc_text(Library(template.file, [kept]), {}, covers, pack.parameters)
