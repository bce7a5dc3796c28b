"""Shapes of circuits that parameters often set: mapped in several sizes by both programs and by ABC's `if`, with what each took, and the goals.

`python3 tools/designs.py shapes` measures. Each netlist is mapped with its parameters and with these as inputs; to ABC a parameter is always
an input. Times are CPU seconds of a whole call, from the text of the netlist to the files that it writes, the least of some runs in turn.
"""

from __future__ import annotations

import argparse
import tempfile
from dataclasses import dataclass
from functools import partial
from statistics import geometric_mean
from typing import Callable, Iterator, Sequence

import shared
from shaping import generators, mapping_calls, pages
from shaping.mapping_calls import Design, Numbers
from tlutflow import tools
from tlutflow.text import write_text

SIZES = (4, 5, 6)
# The most that tlut-compact may take, relative to ABC.
MOST_SECONDS = 1.0
MOST_MEMORY = 2.0
# From so many AND nodes on tlut-compact may take so many megabytes.
LARGE = 500_000
MOST_MEGABYTES = 2048
NAMES = {"tlut": "tlut", "compact": "tlut-compact", "abc": "ABC"}


@dataclass(frozen=True)
class Shape:
    """A shape: its title, with a place for each argument, what makes a netlist of it, and its sizes. The last is near the limit of AND nodes."""

    title: str
    make: Callable[..., generators.Netlist]
    sizes: tuple[tuple[int, ...], ...]
    largest: tuple[int, ...]


SHAPES = (
    Shape("barrel shifter of {} bits", generators.shifter, ((16,), (64,), (128,)), (3600,)),
    Shape("rotator of {} bits", generators.rotator, ((16,), (64,), (128,)), (3600,)),
    Shape("butterfly network of {} lines", generators.butterfly, ((64,), (128,), (256,)), (2048,)),
    Shape("Benes network of {} lines", generators.benes, ((16,), (64,), (128,), (256,)), (2048,)),
    Shape("crossbar of {} lines", generators.crossbar, ((32,), (64,), (128,)), (208,)),
    Shape("crossbar of {} lines, one-hot", generators.selector, ((32,), (64,), (128,)), (255,)),
    Shape("coder of {} bits of remainder, {} bits a cycle", generators.coder, ((32, 8), (32, 32), (32, 256)), (32, 1024)),
    Shape("layer of {} inputs and {} neurons", generators.layer, ((64, 4), (64, 16), (256, 8)), (256, 23)),
    Shape("multiplier of {0} by {0}, one factor a parameter", generators.scaler, ((8,), (16,), (32,), (64,)), (91,)),
    Shape("popcount of {} bits", generators.popcount, ((64,), (1024,), (4096,)), (6900,)),
    Shape("sorter of {} numbers of {} bits", generators.sorter, ((8, 8), (16, 8), (32, 8)), (64, 17)),
)

# Shapes of about a million AND nodes, which only tlut-compact maps.
MILLIONS = (
    Shape("{0} multipliers of {1} by {1}, one factor of each a parameter", generators.scalers, ((16, 64),), ()),
    Shape("soft FPGA of {} cells with {} contents", generators.soft_cells, ((22000, 4000),), ()),
)


def list_of(netlist: generators.Netlist) -> str:
    """A list of the parameters, every second one 1."""
    return "".join(f"{name} {i % 2}\n" for i, name in enumerate(netlist.params))


def write(room: str, netlist: generators.Netlist) -> list[str]:
    """Writes a netlist and its list into a folder, and answers their files."""
    files = [f"{room}/{netlist.name}.blif", f"{room}/{netlist.name}.par"]
    for file, text in zip(files, (netlist.text(), list_of(netlist))):
        write_text(file, text)
    return files


def write_all(room: str) -> None:
    """Writes a netlist of each shape, in the size that its generator takes without arguments."""
    for shape in SHAPES:
        write(room, shape.make())


def chosen(words: list[str], with_largest: bool, shapes: Sequence[Shape] = SHAPES) -> Iterator[tuple[str, Callable[[], generators.Netlist]]]:
    """The title of each netlist that has one of the words in it, or of all, and what makes it."""
    for shape in shapes:
        for size in (*shape.sizes, *([shape.largest] if with_largest else [])):
            title = shape.title.format(*(f"{it:,}" for it in size))
            if not words or any(word in title for word in words):
                yield title, partial(shape.make, *size)


def measure(title: str, netlist: generators.Netlist, programs: dict[str, str], abc: str, sizes: Sequence[int], runs: int) -> Numbers:
    """All figures of a netlist."""
    with tempfile.TemporaryDirectory() as room:
        design = Design(title, *write(room, netlist))
        mapping_calls.prepare(design, room)
        ands = mapping_calls.ands_of(next(iter(programs.values())), design, room)
        found: Numbers = {"ands": ands, "number_of_parameters": len(netlist.params)}
        for kind, parameters in mapping_calls.lists_of(design, room).items():
            if kind == "inputs" or netlist.params:
                jobs = {size: mapping_calls.jobs_of(programs, design, parameters, size, abc, room) for size in sizes}
                found[kind] = {str(size): mapping_calls.mapped(its, runs, room) for size, its in jobs.items()}
    return found


def kinds_of(found: Numbers) -> Iterator[tuple[str, str, Numbers]]:
    """The kind of list, the inputs of a LUT, and what each program left and took."""
    for kind in ("parameters", "inputs"):
        for size, by in found.get(kind, {}).items():
            yield kind, size, by


def head(names: list[str]) -> list[str]:
    """The first lines of the table."""
    titles = ["Netlist", "AND nodes", "parameters", "K"]
    for name in names:
        titles += [f"{NAMES[name]}: LUTs", "bits", "depth", "s", "MB"]
    return [f"| {' | '.join(titles)} |", "|---" * len(titles) + "|"]


def rows(title: str, found: Numbers, names: list[str]) -> list[str]:
    """The lines of the table for a netlist."""
    lines = []
    for kind, size, by in kinds_of(found):
        listed = f"{found['number_of_parameters']:,}" if kind == "parameters" else "0"
        cells = [title, f"{found['ands']:,}", listed, size]
        for name in names:
            it = by.get(name, {"refusal": ""})
            sizes = [it["refusal"], "", ""] if "refusal" in it else [f"{it[what]:,}" for what in ("luts", "bits", "depth")]
            cells += [*sizes, f"{it['seconds']:.3f}", f"{it['megabytes']:,}"] if it.get("seconds") is not None else [*sizes, "", ""]
        lines.append(f"| {' | '.join(cells)} |")
    return lines


def goals(by: Numbers, ands: int) -> Iterator[tuple[bool, str]]:
    """Whether each goal is met by a netlist at one K with one list, and what is said if it isn't."""
    first, second, abc = by.get("tlut"), by.get("compact"), by.get("abc")
    if second is None:
        return
    is_mapped = "refusal" not in second
    if first is not None and "refusal" not in first:
        is_least = is_mapped and second["depth"] == first["depth"]
        yield is_least, f"depth {second.get('depth', second.get('refusal'))}, and tlut's is {first['depth']}"
    if abc is not None and is_mapped:
        yield second["seconds"] <= MOST_SECONDS * abc["seconds"], f"{second['seconds']} s, and ABC takes {abc['seconds']}"
        most = MOST_MEGABYTES if ands >= LARGE else MOST_MEMORY * abc["megabytes"]
        yield second["megabytes"] <= most, f"{second['megabytes']} MB, and ABC takes {abc['megabytes']}"
    elif not is_mapped:
        yield False, f"refused ({second['refusal']})"


def judged(netlists: dict[str, Numbers]) -> list[tuple[bool, str]]:
    """All goals of these netlists."""
    places = [(f"{title}, {kind}, K {size}", by, found["ands"]) for title, found in netlists.items() for kind, size, by in kinds_of(found)]
    return [(is_met, f"{place}: {what}") for place, by, ands in places for is_met, what in goals(by, ands)]


def times(netlists: dict[str, Numbers]) -> Iterator[str]:
    """The CPU time of each program relative to ABC's at each K: the geometric mean, and the netlist on which it is greatest."""
    for kind in ("parameters", "inputs"):
        for size in sorted({size for found in netlists.values() for size in found.get(kind, {})}):
            for name in ("tlut", "compact"):
                listed = [(title, found[kind][size]) for title, found in netlists.items() if size in found.get(kind, {})]
                ratios: dict[str, float] = {title: by[name]["seconds"] / by["abc"]["seconds"] for title, by in listed if "luts" in by.get(name, {})}
                if ratios:
                    worst = max(ratios, key=lambda title: ratios[title])
                    yield f"{NAMES[name]}, {kind}, K {size}: {geometric_mean(ratios.values()):.2f} of ABC's time, at worst {ratios[worst]:.2f} ({worst})"


def roles(programs: list[str]) -> dict[str, str]:
    """The programs by what they are: `compact` is one that has this word in its file's name."""
    return {"compact" if shared.is_compact(it) else "tlut": it for it in programs}


def add_words(parser: argparse.ArgumentParser) -> None:
    """The arguments of `shapes`."""
    which = "a built program: tlut, or tlut-compact if its file has `compact` in its name (default: those that ./tlut builds)"
    parser.add_argument("programs", metavar="PROGRAM", nargs="*", type=shared.path_of, help=which)
    parser.add_argument("--limit", action="store_true", help="also a size near the limit of AND nodes of each shape")
    parser.add_argument("--million", action="store_true", help="netlists of about a million AND nodes instead, with their parameters")
    parser.add_argument("--netlist", metavar="WORD", action="append", default=[], help="only netlists with this word in their title (repeatable)")
    parser.add_argument("--k", metavar="K", type=int, choices=range(2, 7), action="append", help="the inputs of a LUT (repeatable; default: 4, 5 and 6)")
    parser.add_argument("--runs", metavar="N", type=int, default=5, help="how often each call is run, if it is short (default: 5)")


def show(given: argparse.Namespace) -> int:
    """Measures the netlists, prints the table and then the goals that are missed, and answers the exit status."""
    abc, programs = str(tools.need(tools.ABC, "a comparison with ABC")), roles(given.programs or shared.PROGRAMS)
    names = [*programs, "abc"]
    kept: Numbers = mapping_calls.kept(given.json)
    measured: Numbers = {}
    print("\n".join(head(names)), flush=True)
    for title, make in chosen(given.netlist, given.limit, MILLIONS if given.million else SHAPES):
        kept[title] = measured[title] = measure(title, make(), programs, abc, given.k or SIZES, given.runs)
        print("\n".join(rows(title, measured[title], names)), flush=True)
        shared.save(given.json, {"missed": [what for is_met, what in judged(kept) if not is_met], "means": pages.means(kept), "netlists": kept})
    found = judged(measured)
    print("\n".join(times(measured)))
    print("".join(f"missed: {what}\n" for is_met, what in found if not is_met), end="")
    return shared.summary(sum(is_met for is_met, _ in found), sum(not is_met for is_met, _ in found))
