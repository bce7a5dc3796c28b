"""The counts of a mapped circuit that a report shows."""

from __future__ import annotations

from collections import Counter
from dataclasses import asdict, dataclass
from itertools import groupby
from typing import Any, Iterable

from tlutflow.bus import Bus
from tlutflow.circuit import Circuit, Lut
from tlutflow.reports.formula import Formulas
from tlutflow.text import count

KINDS = ("constant", "one parameter", "several parameters")


@dataclass(frozen=True)
class Reach:
    """The number of bits that read a parameter, and the number of LUTs with such bits."""

    bits: int
    tables: int


@dataclass(frozen=True)
class Statistics:
    """The counts of a circuit. A kind is what a bit, or all bits of a LUT together, read of the parameters."""

    name: str
    inputs: int
    outputs: int
    latches: int
    parameters: int
    tables: int
    depth: int
    bits: int
    nodes: int
    tables_by_leaves: dict[int, int]
    tables_by_depth: dict[int, int]
    tables_by_kind: dict[str, int]
    bits_by_kind: dict[str, int]
    reach: dict[str, Reach]
    longest_path: list[str]


def kind(support: int) -> str:
    """What reads these parameters, of which each is a digit."""
    return KINDS[min(bin(support).count("1"), 2)]


def statistics(circuit: Circuit) -> Statistics:
    """The counts of a circuit."""
    lut_supports = [circuit.support(lut) for lut in circuit.luts]
    by_lut, by_bit = Counter(map(kind, lut_supports)), Counter(map(kind, circuit.supports))
    return Statistics(
        circuit.name,
        len(circuit.inputs),
        len(circuit.roots),
        len(circuit.latches),
        len(circuit.pack.parameters),
        len(circuit.luts),
        circuit.depth,
        len(circuit.pack.bits),
        len(circuit.pack.nodes),
        dict(sorted(Counter(len(lut.leaves) for lut in circuit.luts).items())),
        dict(sorted(Counter(circuit.depths.values()).items())),
        {it: by_lut[it] for it in KINDS},
        {it: by_bit[it] for it in KINDS},
        reach_of(circuit, lut_supports),
        circuit.longest_path(),
    )


def reach_of(circuit: Circuit, lut_supports: list[int]) -> dict[str, Reach]:
    """For each parameter the bits and the LUTs that read it."""
    in_bits, in_luts = digit_counts(circuit.supports), digit_counts(lut_supports)
    return {name: Reach(in_bits[place], in_luts[place]) for place, name in enumerate(circuit.pack.parameters)}


def digit_counts(numbers: list[int]) -> Counter[int]:
    """How many of the numbers have each binary digit."""
    counts: Counter[int] = Counter()
    for number, times in Counter(numbers).items():
        while number:
            counts[(number & -number).bit_length() - 1] += times
            number &= number - 1
    return counts


def as_json(circuit: Circuit, formulas: Formulas) -> dict[str, Any]:
    """The whole report for other programs: the counts, and each LUT with the functions of its bits."""
    luts = [lut_json(circuit, lut, formulas) for lut in circuit.luts]
    texts = [text for lut in luts for text in lut["functions"]]
    definitions = dict(line.split(" = ", 1) for line in formulas.definitions(texts))
    return {
        **asdict(statistics(circuit)),
        "parameter_values": circuit.pack.parameters,
        "input_nets": circuit.inputs,
        "clock": circuit.clock,
        "output_roots": circuit.roots,
        "latch_list": [{"net": it.state, "next": it.source, "start": it.start} for it in circuit.latches],
        "table_list": luts,
        "shared_functions": definitions,
    }


def lut_json(circuit: Circuit, lut: Lut, formulas: Formulas) -> dict[str, Any]:
    """A LUT for other programs."""
    return {
        "net": lut.net,
        "leaves": lut.leaves,
        "first_bit": lut.first,
        "bits": lut.size,
        "depth": circuit.depths[lut.net],
        "parameters": circuit.parameters_in(circuit.support(lut)),
        "functions": [formulas.of_bit(address) for address in lut.addresses],
    }


def grid(rows: list[list[str]]) -> list[str]:
    """Rows of cells as lines: the first column to the left, the others to the right."""
    widths = [max(len(row[place]) for row in rows) for place in range(len(rows[0]))]
    lines = []
    for first, *others in rows:
        cells = [first.ljust(widths[0]), *(cell.rjust(width) for cell, width in zip(others, widths[1:]))]
        lines.append("  ".join(cells).rstrip())
    return lines


def counted(counts: dict[int, int], title: str) -> list[list[str]]:
    """Two rows: numbers, and how many LUTs have each."""
    return [[title, *map(str, counts)], ["LUTs", *map(str, counts.values())]]


def reach_rows(reach: dict[str, Reach], buses: Iterable[Bus]) -> list[list[str]]:
    """A row for each parameter; those of a bus that follow one another and reach alike share one."""
    rows = []
    for bus in buses:
        for found, nets in groupby(bus.nets, key=lambda net: reach[net]):
            first, *others = list(nets)
            rows.append([f"{first} to {others[-1]}, each" if others else first, str(found.bits), str(found.tables)])
    return rows


def text_of(found: Statistics, buses: Iterable[Bus]) -> list[str]:
    """The lines of a report."""
    path = found.longest_path
    ports = [count(found.inputs, "input"), count(found.outputs, "output"), f"{found.latches} latch{'' if found.latches == 1 else 'es'}"]
    lines = [f"{found.name}: {', '.join(ports)}, {count(found.parameters, 'parameter')}"]
    lines.append(f"{count(found.tables, 'LUT')} at depth {found.depth}, {count(found.bits, 'configuration bit')}, {count(found.nodes, 'AND node')} in the pack")
    lines.append("")
    if found.tables:
        lines += [*grid(counted(found.tables_by_leaves, "leaves")), "", *grid(counted(found.tables_by_depth, "depth")), ""]
        lines += [*grid([["read", *KINDS], ["bits", *map(str, found.bits_by_kind.values())], ["LUTs", *map(str, found.tables_by_kind.values())]]), ""]
    if found.reach:
        lines += grid([["parameter", "bits", "LUTs"], *reach_rows(found.reach, buses)])
        lines.append("")
    lines.append(f"critical path: {' > '.join(path)}" if path else "no LUTs")
    return lines
