"""A source circuit played cycle by cycle, by its covers alone: what a run of the mapped circuit has to print."""

from __future__ import annotations

from typing import Callable

from tlutflow.faults import Fault
from tlutflow.netlist import Cover, Library, Model, instance_nets


class SourcePlayer:
    """The flat circuit of a library, with the values of its parameters and the states of its latches."""

    def __init__(self, library: Library, parameters: dict[str, int], regular: list[str]):
        self.library, self.regular = library, regular
        self.parameters = dict(parameters)
        self.covers: dict[str, Cover] = {}
        self.nexts: list[str] = []
        self.flatten()
        self.latches = library.flat_latches()
        self.states = [it.start for it in self.latches]
        self.order = self.ordered()

    def flatten(self) -> None:
        """Collects the covers of all instances, and the next states in flat order."""
        named = {model.name: model for model in reversed(self.library.models)}
        waiting: list[tuple[Model, str, Callable[[str], str]]] = [(self.library.main, "", lambda name: name)]
        while waiting:
            model, path, net_of = waiting.pop()
            for cover in model.covers:
                self.covers[net_of(cover.output)] = Cover([net_of(it) for it in cover.inputs], net_of(cover.output), cover.rows)
            self.nexts += [net_of(it.source) for it in model.latches]
            for ordinal, placed in reversed(list(enumerate(model.subckts))):
                below = f"{path}{ordinal}/"
                waiting.append((named[placed.model], below, instance_nets(placed, below, net_of)))

    def ordered(self) -> list[Cover]:
        """The covers, each after those that it reads."""
        done: set[str] = set()
        order: list[Cover] = []
        for root in self.covers:
            waiting = [root]
            open_nets: set[str] = set()
            while waiting:
                net = waiting[-1]
                if net in done or net not in self.covers:
                    waiting.pop()
                    continue
                missing = [it for it in self.covers[net].inputs if it in self.covers and it not in done]
                if missing and net in open_nets:
                    raise Fault(f"{self.library.file}: {net} is in a combinational loop; ./tlut reports more")
                if missing:
                    open_nets.add(net)
                    waiting += missing
                    continue
                done.add(waiting.pop())
                order.append(self.covers[net])
        return order

    def cycle(self, inputs: dict[str, int]) -> tuple[str, str]:
        """Plays a cycle; returns the outputs and the states after it, as digits."""
        values = {**self.parameters, **inputs}
        values.update((latch.net, bit) for latch, bit in zip(self.latches, self.states))
        for cover in self.order:
            values[cover.output] = value_of(cover, values)
        self.states = [values.get(net, 0) for net in self.nexts]
        outputs = "".join(str(values.get(name, 0)) for name in self.library.main.outputs)
        return outputs, "".join(map(str, self.states))


def value_of(cover: Cover, values: dict[str, int]) -> int:
    """The value of a cover. Rows that end in 0 are its off-set."""
    bits = [str(values.get(name, 0)) for name in cover.inputs]
    is_met = any(all(cell in ("-", bit) for cell, bit in zip(cells, bits)) for cells, _ in cover.rows)
    if cover.rows and cover.rows[0][1] == "0":
        return int(not is_met)
    return int(is_met)
