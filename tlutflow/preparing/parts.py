"""Large logic in parts, which are prepared one by one and put together again.

Each gate is in one part at most, so nothing is there twice. Gates that only parameters are below are in none and stay as they are: their
structure changes neither LUTs nor depth. A part reads nets of earlier parts alone, so whatever is made of the parts has no loop.
"""

from __future__ import annotations

from dataclasses import dataclass
from typing import Iterable, Iterator, Optional

from tlutflow.netlist import Cover, Model, parse_library
from tlutflow.preparing.combinational import Logic, free_mark, logic_text, model_text

# Logic of more two-input gates than this is divided, into parts of at most as many.
PART_SIZE = 20_000


@dataclass(frozen=True)
class Part:
    """Some gates, each after those that it reads; the constants and the other nets that they read from outside, and those that are read
    outside."""

    gates: list[Cover]
    constants: list[Cover]
    inputs: list[str]
    outputs: list[str]

    def text(self) -> str:
        """The part as a netlist, in BLIF with plain names."""
        return logic_text(Model("part", covers=[*self.constants, *self.gates]), self.inputs, self.outputs)


@dataclass(frozen=True)
class Divided:
    """Logic in parts, each after those that it reads, and the gates that stay as they are."""

    logic: Logic
    parts: list[Part]
    rest: list[Cover]


def size_of(covers: Iterable[Cover]) -> int:
    """About how many two-input gates covers are: one fewer than the literals of each."""
    return sum(max(0, sum(len(cells) - cells.count("-") for cells, _ in cover.rows) - 1) for cover in covers)


def divided(logic: Logic, parameters: Iterable[str], most: int = PART_SIZE) -> Divided:
    """Logic in parts of at most so many gates. Roots that share gates are in one part if these fit into one."""
    covers = {cover.output: cover for cover in logic.model.covers}
    ordered = below(covers, logic.roots, set())
    fixed = fixed_nets(ordered, set(parameters))
    changing = {cover.output: cover for cover in ordered if cover.output not in fixed}
    units = [unit for cluster in clusters(changing, logic.roots) for unit in units_of(cluster, most)]
    parts = parts_of(packed(units, most), covers, logic.roots)
    return Divided(logic, parts, [cover for cover in ordered if cover.output in fixed])


def below(covers: dict[str, Cover], nets: Iterable[str], done: set[str]) -> list[Cover]:
    """The covers that some nets depend on and that aren't done yet, each after those that it reads."""
    found = []
    waiting = [(net, False) for net in nets]
    while waiting:
        net, is_ready = waiting.pop()
        if is_ready:
            found.append(covers[net])
        elif net in covers and net not in done:
            done.add(net)
            waiting.append((net, True))
            waiting += [(it, False) for it in reversed(covers[net].inputs)]
    return found


def fixed_nets(ordered: list[Cover], parameters: set[str]) -> set[str]:
    """The nets that have nothing but parameters and constants below them."""
    fixed: set[str] = set()
    for cover in ordered:
        if all(net in parameters or net in fixed for net in cover.inputs):
            fixed.add(cover.output)
    return fixed


def clusters(covers: dict[str, Cover], roots: list[str]) -> list[list[list[Cover]]]:
    """The gates below the roots in clusters that share none. A cluster has a list for each of its roots: the gates that the roots before it
    don't have."""
    done: set[str] = set()
    root_of: dict[str, int] = {}
    above = list(range(len(roots)))
    new_gates = []
    for place, root in enumerate(roots):
        gates = below(covers, [root], done)
        new_gates.append(gates)
        root_of.update((cover.output, place) for cover in gates)
        for net in (root, *(it for cover in gates for it in cover.inputs)):
            join(above, place, root_of.get(net, place))
    found: dict[int, list[list[Cover]]] = {}
    for place, gates in enumerate(new_gates):
        found.setdefault(top_of(above, place), []).append(gates)
    return [cluster for cluster in found.values() if any(cluster)]


def top_of(above: list[int], place: int) -> int:
    """The place that stands for the set of a place. The way to it is halved for the next time."""
    while above[place] != place:
        above[place] = above[above[place]]
        place = above[place]
    return place


def join(above: list[int], left: int, right: int) -> None:
    """Makes one set of the sets of two places, for which the lower one stands."""
    tops = sorted((top_of(above, left), top_of(above, right)))
    above[tops[1]] = tops[0]


def units_of(cluster: list[list[Cover]], most: int) -> Iterator[list[Cover]]:
    """What of a cluster stays in one part: all of it if it fits, or else what each root adds if that fits, or else each gate alone."""
    if sum(map(size_of, cluster)) <= most:
        yield [cover for gates in cluster for cover in gates]
        return
    for gates in cluster:
        if size_of(gates) <= most:
            yield gates
        else:
            yield from ([cover] for cover in gates)


def packed(units: list[list[Cover]], most: int) -> list[list[Cover]]:
    """Units put into groups in their order, as many into each as fit."""
    groups: list[list[Cover]] = []
    left = 0
    for unit in units:
        size = size_of(unit)
        if not groups or size > left:
            groups.append([])
            left = most
        groups[-1] += unit
        left -= size
    return groups


def parts_of(groups: list[list[Cover]], covers: dict[str, Cover], roots: list[str]) -> list[Part]:
    """The parts that have these gates."""
    group_of = {cover.output: place for place, gates in enumerate(groups) for cover in gates}
    wanted = set(roots)
    parts = []
    for place, gates in enumerate(groups):
        read = dict.fromkeys(net for cover in gates for net in cover.inputs if group_of.get(net) != place)
        wanted.update(net for net in read if net in group_of)
        constants = [covers[net] for net in read if net in covers and not covers[net].inputs]
        fixed = {cover.output for cover in constants}
        parts.append(Part(gates, constants, [net for net in read if net not in fixed], []))
    for part in parts:
        part.outputs.extend(cover.output for cover in part.gates if cover.output in wanted)
    return parts


def put_together(whole: Divided, made: list[Optional[str]]) -> str:
    """The netlist whose parts are what ABC wrote for each, or as they were read if it wrote nothing."""
    model = whole.logic.model
    names = {*model.all_inputs(), *(latch.state for latch in model.latches), *(cover.output for cover in model.covers)}
    mark = free_mark(names)
    covers = list(whole.rest)
    for part, text in zip(whole.parts, made):
        covers += part.gates if text is None else renamed(part, text, mark, len(covers))
    return model_text(model, covers)


def renamed(part: Part, text: str, mark: str, first: int) -> list[Cover]:
    """The gates that ABC wrote for a part, with the names of the netlist. Other nets are numbered from the first one."""
    names = {f"i{place}": net for place, net in enumerate(part.inputs)}
    names.update({f"o{place}": net for place, net in enumerate(part.outputs)})
    made = parse_library(text, "part").main.covers
    for place, cover in enumerate(made, first):
        names.setdefault(cover.output, f"{mark}{place}")
    return [Cover([names[net] for net in cover.inputs], names[cover.output], cover.rows) for cover in made]
