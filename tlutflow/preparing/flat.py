"""A netlist as one flat model, from BLIF with models in models or from AIGER's ASCII form.

Nets have the names that `tlut` gives them: a net of an instance is the instance's ordinal, a slash and its name.
"""

from __future__ import annotations

from typing import Callable

from tlutflow.faults import Fault
from tlutflow.netlist import Cover, Latch, Library, Model, instance_nets, read_library


def read_flat(path: str) -> Model:
    """The flat model of a file in BLIF or in AIGER's ASCII form."""
    return flat_model(read_library(path))


def flat_model(library: Library) -> Model:
    """The main model with all that it places put into it."""
    main = library.main
    if not main.subckts:
        return main
    named = {model.name: model for model in reversed(library.models)}
    flat = Model(main.name, main.inputs, main.outputs, main.clocks)
    waiting: list[tuple[Model, str, Callable[[str], str]]] = [(main, "", lambda name: name)]
    while waiting:
        model, path, net_of = waiting.pop()
        flat.covers += [Cover([net_of(it) for it in cover.inputs], net_of(cover.output), cover.rows) for cover in model.covers]
        flat.latches += [Latch(net_of(it.source), net_of(it.state), it.control and net_of(it.control), it.init) for it in model.latches]
        for ordinal, placed in reversed(list(enumerate(model.subckts))):
            if placed.model not in named or path.count("/") > len(named):
                raise Fault(f"{library.file}: the models can't be flattened; ./tlut reports why")
            below = f"{path}{ordinal}/"
            waiting.append((named[placed.model], below, instance_nets(placed, below, net_of)))
    return flat
