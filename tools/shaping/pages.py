"""What docs/performance.md states of shapes: the rows of its table, and means over all netlists, from what `tools/designs.py shapes` measured."""

from __future__ import annotations

from statistics import geometric_mean
from typing import Any, Iterator, Sequence

Numbers = dict[str, Any]
# The inputs of a LUT in the table.
SIZES = ("4", "6")


def seconds(value: float) -> str:
    """A time in two digits."""
    return f"{value:.2f}" if value >= 0.1 else f"{value:.3f}"


def cells_of(it: Numbers, whats: Sequence[str]) -> list[str]:
    """The cells of a program: what it left and took, or its refusal and what it took."""
    left = [it["refusal"], *("" for _ in whats[1:])] if "refusal" in it else [f"{it[what]:,}" for what in whats]
    return [*left, seconds(it["seconds"]), f"{it['megabytes']:,}"]


def table_rows(netlists: Numbers, titles: Sequence[str]) -> list[list[str]]:
    """The rows of these netlists, with their parameters. One without parameters has these figures for its inputs."""
    found = []
    for title in titles:
        it = netlists[title]
        by_size = it.get("parameters") or it["inputs"]
        for size in SIZES:
            by = by_size[size]
            found.append([title, f"{it['ands']:,}", size, *cells_of(by["tlut"], ["luts"]), *cells_of(by["compact"], ["luts", "depth"]), *cells_of(by["abc"], ["luts", "depth"])])
    return found


def million_rows(netlists: Numbers) -> list[list[str]]:
    """The rows of the netlists of a million AND nodes, with their parameters."""
    found = []
    for title, it in netlists.items():
        for size in SIZES:
            by = it["parameters"][size]
            found.append([title, f"{it['ands']:,}", size, *cells_of(by["compact"], ["luts", "depth"]), *cells_of(by["abc"], ["luts", "depth"])])
    return found


def runs(netlists: Numbers) -> Iterator[tuple[str, str, Numbers]]:
    """The kind of list, the inputs of a LUT, and what each program left and took."""
    for it in netlists.values():
        for kind in ("parameters", "inputs"):
            for size, by in it.get(kind, {}).items():
                yield kind, size, by


def means(netlists: Numbers) -> Numbers:
    """How `tlut-compact` stands to ABC over all netlists: geometric means of times and LUTs by kind of list and K, and the greatest ratios."""
    found: Numbers = {}
    for kind in ("parameters", "inputs"):
        found[kind] = {}
        for size in ("4", "5", "6"):
            listed = [by for of_kind, of_size, by in runs(netlists) if (of_kind, of_size) == (kind, size) and "luts" in by.get("compact", {})]
            if listed:
                found[kind][size] = {what: geometric_mean(by["compact"][what] / by["abc"][what] for by in listed) for what in ("seconds", "luts")}
    mapped = [by for _, _, by in runs(netlists) if "luts" in by.get("compact", {})]
    found["runs"] = len(mapped)
    found["greatest"] = {what: max(by["compact"][what] / by["abc"][what] for by in mapped) for what in ("seconds", "megabytes")}
    return found
