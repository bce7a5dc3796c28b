"""The figures that pages state, compared with what the measuring tools wrote.

`docs/figures/` has a JSON file for each tool that writes one with `--json`, and `by_hand.json` for figures that no tool measures. Here are
the places where pages state them: sentences by a pattern, and tables by their first line. `tools/doc_facts.py` compares each place with
the JSON, and with `--update` writes the figures into the pages. So a new measurement changes every page that states it.
"""

from __future__ import annotations

import glob
import json
import os
import re
from dataclasses import dataclass
from statistics import geometric_mean
from typing import Any, Callable, Iterator, Mapping, Optional

import limits
import time_plot
from on_device import tables as on_device
from shaping import pages as shape_pages
from shaping import shapes
from shared import TOP

FOLDER = f"{TOP}/docs/figures"
Rows = list[list[str]]


class Figures:
    """What the JSON files have, by the names of the files without their end."""

    def __init__(self, folder: str = FOLDER) -> None:
        self.files: dict[str, Any] = {}
        for path in sorted(glob.glob(f"{folder}/*.json")):
            with open(path, encoding="utf-8") as file:
                self.files[os.path.basename(path)[:-5]] = json.load(file)

    def at(self, key: str) -> Any:
        """The value of a key: the file and the names of the fields, separated by slashes."""
        found: Any = self.files
        for name in key.split("/"):
            found = found[name]
        return found

    def has(self, key: str) -> bool:
        """Whether the files have a value for a key."""
        try:
            self.at(key.partition(":")[0])
        except KeyError:
            return False
        return True

    def written(self, key: str) -> str:
        """The value as a page writes it: a number with commas, or in the form after the colon of the key."""
        path, _, form = key.partition(":")
        if not self.has(key):
            return "in no file"
        value = self.at(path)
        if isinstance(value, str):
            return value
        return format(value, form or (",d" if isinstance(value, int) else ""))


@dataclass(frozen=True)
class Stated:
    """A sentence of a page that states figures: a pattern with a group for each key."""

    page: str
    pattern: str
    keys: tuple[str, ...]


@dataclass(frozen=True)
class Table:
    """A table of a page: how its first line begins, and its rows."""

    page: str
    head: str
    rows: Callable[[Figures], Rows]

    def place(self, lines: list[str]) -> Optional[int]:
        """The number of the line at which the rows begin, or none."""
        return next((at + 2 for at, line in enumerate(lines) if line.startswith(self.head)), None)

    def texts(self, figures: Figures) -> list[str]:
        """The lines of the rows."""
        return ["| " + " | ".join(row) + " |" for row in self.rows(figures)]


def rows_at(lines: list[str], first: int) -> list[str]:
    """The rows of a table that begin at a line."""
    end = next((at for at in range(first, len(lines)) if not lines[at].startswith("|")), len(lines))
    return lines[first:end]


def stated(page: str, pattern: str, *keys: str) -> Stated:
    """A sentence; its pattern is plain text in which `<>` is a figure and `<..>` some words."""
    return Stated(page, re.escape(pattern).replace("<>", r"([\d,.]+(?<=\d))").replace(r"<\.\.>", "(.+?)"), keys)


def rule_rows(kind: str, *ours: str) -> Callable[[Figures], Rows]:
    """The rows of a table of both rules, with the parameters as such or as inputs, and what it has of our two programs."""
    columns = [("tlut", ours), ("compact", ours), ("abc", ("luts", "depth", "bits"))]

    def rows(figures: Figures) -> Rows:
        found = []
        for design, sizes in figures.at(f"rules/{kind}").items():
            for size, by in sizes.items():
                cells = [shown(by[who].get(what, ""), 1 if what == "change" else 0) for who, whats in columns for what in whats]
                found.append([design, size, *cells])
        return found

    return rows


# The netlists of the table of stages, and what tools/designs.py calls them.
STAGED = {
    "`fir` of `examples/`": "fir (example)",
    "`matcher` of `examples/`": "matcher (example)",
    "`coder` of `examples/`": "coder (example)",
    "multiplier, 16 by 16": "multiplier",
    "filter, 8 taps of 8 bits": "filter",
    "coder of 8 bits a cycle, 32 of remainder": "coder",
    "Benes network, 16 lines": "benes",
}
STAGES = ("read", "flatten", "graph", "cuts", "labels", "cover", "functions", "cycles", "changes", "ABC")


def shown(value: object, places: int = 0) -> str:
    """A number with commas and at most this many digits after the point, or no number at all."""
    return f"{value:,.{places}f}" if isinstance(value, (int, float)) else str(value)


def stage_rows(figures: Figures) -> Rows:
    """The rows of the table of stages: milliseconds in three digits. A netlist without parameters has no changes."""
    found = []
    for title, name in STAGED.items():
        took = figures.at(f"stages/{name}/ms")
        found.append([title, *(three_digits(took[stage], stage) if stage in took else "no parameters" for stage in STAGES)])
    return found


# What the table of results has of each stage: its name, and which number of its line.
RESULTS = (("graph", 1), ("cuts", 0), ("cover", 0), ("cover", 1), ("functions", 0), ("functions", 1))


def result_rows(figures: Figures) -> Rows:
    """The rows of the table of what comes out of the stages."""
    found = []
    for title, name in STAGED.items():
        numbers = {stage: re.findall(r"\d+", line) for stage, line in figures.at(f"stages/{name}/counts").items()}
        found.append([title, figures.written(f"stages/{name}/parameters"), *(f"{int(numbers[stage][place]):,}" for stage, place in RESULTS)])
    return found


def three_digits(value: float, stage: str) -> str:
    """A time of two digits after the point, or three in all; ABC's is less exact."""
    return f"{value:.2f}" if value < 10 and stage != "ABC" else f"{value:.1f}" if value < 100 else f"{value:.0f}"


def limit_rows(titles: Mapping[str, tuple[str, ...]]) -> Callable[[Figures], Rows]:
    """The rows of a table of limits."""

    def rows(figures: Figures) -> Rows:
        found = []
        for title, calls in titles.items():
            seconds, megabytes = (max(figures.at(f"limits/{call}/{what}") for call in calls) for what in ("seconds", "megabytes"))
            found.append([title, f"{seconds:.1f}" if seconds < 10 else f"{seconds:.0f}", f"{megabytes:,}"])
        return found

    return rows


# The classes of netlists by their AND nodes.
CLASSES = (("up to 300", 0, 300), ("301 to 3,000", 301, 3000), ("more than 3,000", 3001, 10**9))
SIZES = ("4", "5", "6")


def netlists(figures: Figures, least: int, most: int) -> dict[str, Any]:
    """The netlists with this many AND nodes, by their titles."""
    return {title: it for title, it in figures.at("beside_abc/netlists").items() if least <= it["ands"] <= most}


def ratios(found: dict[str, Any], kind: str, size: str, above: tuple[str, str], below: tuple[str, str]) -> dict[str, float]:
    """What one program has of something relative to another one, by netlist: without those that are refused, and with parameters only those that have any."""
    listed = {title: it[kind][size] for title, it in found.items() if kind == "inputs" or it["number_of_parameters"]}
    return {title: by[above[0]][above[1]] / by[below[0]][below[1]] for title, by in listed.items() if "refusal" not in by[above[0]] and by[below[0]].get(below[1])}


def class_rows(figures: Figures) -> Rows:
    """The rows of the first table: geometric means over the netlists of a class."""
    found = []
    for title, least, most in CLASSES:
        some = netlists(figures, least, most)
        for size in SIZES:
            columns = [("parameters", "luts"), ("inputs", "luts"), ("parameters", "seconds")]
            means = [geometric_mean(ratios(some, kind, size, (who, what), ("abc", what)).values()) for kind, what in columns for who in ("tlut", "compact")]
            count = sum(1 for it in some.values() if it["number_of_parameters"])
            found.append([title, size, f"{len(some)}, {count} with parameters", *(f"{it:.2f}" for it in means)])
    return found


def worst_rows(figures: Figures) -> Rows:
    """The rows of the second table: the geometric mean over all netlists, and on which one a program is worst."""
    netlists_found, found = figures.at("beside_abc/netlists"), []
    for kind, words in (("parameters", "parameters as such"), ("inputs", "parameters as inputs")):
        for who, name in (("tlut", "`tlut`"), ("compact", "`tlut-compact`")):
            by_size = [ratios(netlists_found, kind, size, (who, "luts"), ("abc", "luts")) for size in SIZES]
            found.append([f"LUTs of {name} to ABC's, {words}", *map(mean_and_worst, by_size)])
    changes = [ratios(netlists_found, "parameters", size, ("compact", "change"), ("tlut", "change")) for size in SIZES]
    found.append(["bits that a change rewrites, `tlut-compact` to `tlut`", *map(mean_and_worst, changes)])
    for who, name in (("tlut", "`tlut`"), ("compact", "`tlut-compact`")):
        times = [ratios(netlists_found, "parameters", size, (who, "seconds"), ("abc", "seconds")) for size in SIZES]
        found.append([f"CPU time of {name} to ABC's, parameters as such", *map(mean_and_worst, times)])
    return found


def mean_and_worst(found: dict[str, float]) -> str:
    """A cell with the geometric mean of some ratios, and the greatest one with its netlist."""
    worst = max(found, key=lambda title: found[title])
    return f"{geometric_mean(found.values()):.2f}, at worst {found[worst]:.2f} ({worst})"


def larger_rows(figures: Figures) -> Rows:
    """The rows of the third table: times and memory of the larger netlists."""
    found = []
    for title, netlist in netlists(figures, 3001, 10**9).items():
        for size in SIZES[::2]:
            cells = []
            for who in ("tlut", "compact", "abc"):
                it = netlist["parameters"][size][who]
                cells += [f"refused ({it['refusal']})", ""] if "refusal" in it else [f"{it['seconds']:.2f}", str(it["megabytes"])]
            found.append([title, f"{netlist['ands']:,}", size, *cells])
    return found


def on_a_device(rows: Callable[[dict[str, Any]], Rows]) -> Callable[[Figures], Rows]:
    """The rows of a table of what devices take."""
    return lambda figures: rows(figures.at("device"))


def shape_rows(figures: Figures) -> Rows:
    """The rows of the table of shapes: the greatest size of each."""
    titles = [shape.title.format(*(f"{it:,}" for it in shape.sizes[-1])) for shape in shapes.SHAPES]
    return shape_pages.table_rows(figures.at("shapes/netlists"), titles)


FIR = "rules/parameters/fir/4"
MEANS = "beside_abc/means"
STATED = [
    stated(
        "README.md",
        "needs **<> LUTs at depth <>**, or <> with `--compact`",
        f"{FIR}/tlut/luts",
        f"{FIR}/tlut/depth",
        f"{FIR}/compact/luts",
    ),
    stated("README.md", "with `--compact`. ABC needs <> at depth <>", f"{FIR}/abc/luts", f"{FIR}/abc/depth"),
    stated("README.md", "needs <> LUTs at depth <>, and ABC <> at depth <>", *(f"rules/parameters/coder/4/{it}" for it in ("tlut/luts", "tlut/depth", "abc/luts", "abc/depth"))),
    stated(
        "README.md",
        "takes <> LUTs and <> flip-flops of an iCE40 with its coefficients in registers, and <> and <> as a tunable circuit",
        *(f"device/ports/fir/{it}/{what}" for it in ("registers", "sizes/4/rows/chain") for what in ("luts", "flip_flops")),
    ),
    stated("README.md", "takes <> of the LUT sites of a Xilinx device of series 7 that registers take", "device/means/sites:.2f"),
    stated(
        "README.md",
        "with parameters it has <> (K 4) and <> (K 6) times the LUTs of `if`, and <> and <> times with the parameters as inputs",
        *(f"{MEANS}/{kind}/{size}/compact:.2f" for kind in ("parameters", "inputs") for size in ("4", "6")),
    ),
    stated(
        "README.md",
        "`tlut` has <> and <> times with parameters, and <> and <> times with them as inputs",
        *(f"{MEANS}/{kind}/{size}/tlut:.2f" for kind in ("parameters", "inputs") for size in ("4", "6")),
    ),
    stated(
        "README.md",
        "a change of one parameter rewrites <> (K 4) and <> (K 6) times as many bits, and on one netlist <> times",
        *(f"{MEANS}/parameters/{size}/change:.2f" for size in ("4", "6")),
        f"{MEANS}/greatest_change",
    ),
    stated("README.md", "over [<> netlists](docs/performance.md#how-large-and-how-fast)", f"{MEANS}/netlists"),
    *(stated(page, pattern, *(f"device/{key}" for key in keys)) for page, pattern, keys in on_device.STATED),
    stated("README.md", "takes 20 to <> minutes on four processors", "by_hand/first_call/slowest_minutes"),
    stated("docs/performance.md", "| <> minutes (<> CPU-minutes) with nothing else", "by_hand/first_call/minutes", "by_hand/first_call/cpu_minutes"),
    stated("docs/performance.md", "on other machines <> to <> (", "by_hand/first_call/slow_minutes", "by_hand/first_call/slowest_minutes"),
    stated("docs/testing.md", "first call of `./tlut` | <>, of which provers <>", "by_hand/first_call/cpu_minutes", "by_hand/first_call/prover_minutes"),
    stated("docs/testing.md", "| <> minutes with nothing else at work; on other machines <> to <> |", "by_hand/first_call/minutes", "by_hand/first_call/slow_minutes", "by_hand/first_call/slowest_minutes"),
    stated("docs/performance.md", "A [cut](glossary.md#cut) table at its limit takes about <> MB", "by_hand/cut_table_mb"),
    stated("docs/DECISIONS.md", "A table at its limit of 2^23 cuts takes about <> MB", "by_hand/cut_table_mb"),
    stated("docs/case-studies.md", "| `tlut`, coefficients as parameters | <> | <> | <> |", f"{FIR}/tlut/luts", f"{FIR}/tlut/depth", f"{FIR}/tlut/bits"),
    stated("docs/case-studies.md", "| `tlut-compact`, coefficients as parameters | <> | <> | <> |", f"{FIR}/compact/luts", f"{FIR}/compact/depth", f"{FIR}/compact/bits"),
    stated("docs/case-studies.md", "| ABC `if`, coefficients as inputs | <> | <> | <> |", f"{FIR}/abc/luts", f"{FIR}/abc/depth", f"{FIR}/abc/bits"),
    stated(
        "docs/performance.md",
        "rewrites <> times as many bits with `tlut-compact` as with `tlut` at K 4, and <> times as many at K 6",
        "rules/means/parameters/4/change",
        "rules/means/parameters/6/change",
    ),
    stated(
        "docs/performance.md",
        "on one of them it is <> and <> times as many",
        "rules/means/parameters/4/greatest_change",
        "rules/means/parameters/6/greatest_change",
    ),
    stated("docs/performance.md", "`tlut-compact` has <> times the LUTs of ABC's `if` at K 4 and <> times at K 6", "rules/means/inputs/4/compact_luts", "rules/means/inputs/6/compact_luts"),
    stated("docs/performance.md", "With parameters `tlut-compact` takes <>, <> and <> times ABC's time", *(f"shapes/means/parameters/{size}/seconds:.2f" for size in SIZES)),
    stated("docs/performance.md", "and with these as inputs <>, <> and <> times.", *(f"shapes/means/inputs/{size}/seconds:.2f" for size in SIZES)),
    stated("docs/performance.md", "In any of the <> runs its time is at most <> times ABC's, and its memory at most <> times", "shapes/means/runs", "shapes/means/greatest/seconds:.2f", "shapes/means/greatest/megabytes:.2f"),
    stated("docs/performance.md", "With the parameters as inputs it has <>, <> and <> times ABC's LUTs", *(f"shapes/means/inputs/{size}/luts:.3f" for size in SIZES)),
    stated("docs/performance.md", "`rt ci` from nothing | <> minutes (<> CPU-minutes)", "by_hand/gate/minutes", "by_hand/gate/cpu_minutes"),
    stated("docs/testing.md", "a whole gate from nothing | <> | <> minutes", "by_hand/gate/cpu_minutes", "by_hand/gate/minutes"),
    stated("docs/performance.md", "the library takes <> µs per change, and `tlut bits` <> µs", "changes/library_us", "changes/bits_us"),
    stated("docs/performance.md", "A call of ABC that does nothing takes <> seconds", "beside_abc/abc_start_seconds"),
    stated("docs/performance.md", "took <> to 17.7 µs per change, `tlut bits` <> to 24.3, and the loop <>.", "changes/library_us", "changes/bits_us", "changes/loop_us"),
    stated("docs/performance.md", "| `fir` of `examples/` | 9 | 229 | 3,364 | <> | <> | <> |", f"{FIR}/tlut/luts", f"{FIR}/tlut/depth", f"{FIR}/tlut/bits"),
    stated("docs/performance.md", "with <> parameters, <> nodes and <> bits, a parameter reaches <> nodes on average, and a change of one writes <> bits", *(f"changes/{it}" for it in ("parameters", "nodes", "bits", "reached", "writes"))),
    stated("docs/host.md", "(<> parameters, <> bits) it took <> microseconds, with <> writes", *(f"changes/{it}" for it in ("parameters", "bits", "library_us", "writes"))),
    stated("docs/examples.md", "14 of the <> configuration bits", f"{FIR}/tlut/bits"),
    stated("docs/verilog.md", "So 37 of the <> LUTs never change, and 126 of the <> bits can", f"{FIR}/tlut/luts", f"{FIR}/tlut/bits"),
]
TABLES = [
    Table("docs/performance.md", "| AND nodes | K | netlists |", class_rows),
    Table("docs/performance.md", "| Relative to |", worst_rows),
    Table("docs/performance.md", "| Netlist | AND nodes | K | `tlut`: s |", larger_rows),
    Table("docs/performance.md", "| Netlist | AND nodes | K | `tlut`: LUTs |", shape_rows),
    Table("docs/performance.md", "| Netlist | AND nodes | K | `tlut-compact`: LUTs |", lambda figures: shape_pages.million_rows(figures.at("million/netlists"))),
    Table("docs/performance.md", "| Design | K | `tlut`: LUTs | depth | bits | a change |", rule_rows("parameters", "luts", "depth", "bits", "change")),
    Table("docs/performance.md", "| Design | K | `tlut`: LUTs | depth | bits | `tlut-compact`: LUTs | depth | bits | ABC's", rule_rows("inputs", "luts", "depth", "bits")),
    Table("docs/performance.md", "| Netlist | read |", stage_rows),
    Table("docs/performance.md", "| Netlist | parameters | AND nodes |", result_rows),
    Table("docs/performance.md", "| Input of `run` with", limit_rows(limits.ROWS)),
    Table("docs/performance.md", "| Input of `bits`", limit_rows(limits.PACK_ROWS)),
    *(Table(page, head, on_a_device(rows)) for _, page, head, rows in on_device.TABLES),
]


def differences(figures: Figures, texts: dict[str, str]) -> Iterator[tuple[str, int, bool, str]]:
    """Each figure of each place: the page, the line, whether it is right, and what is said if it isn't."""
    for place in STATED:
        found = re.search(place.pattern, texts[place.page])
        line = texts[place.page].count("\n", 0, found.start()) + 1 if found else 1
        yield place.page, line, found is not None, f"no text of the form {place.pattern}"
        for word, key in zip(found.groups() if found else (), place.keys):
            wanted = figures.written(key)
            yield place.page, line, word == wanted, f"{word}, and {key} is {wanted}"
    for table in TABLES:
        lines = texts[table.page].splitlines()
        first = table.place(lines)
        wanted_rows = table.texts(figures)
        rows = rows_at(lines, first) if first is not None else []
        yield table.page, first or 1, len(rows) == len(wanted_rows), f"the table {table.head} has {len(rows)} rows, and the JSON {len(wanted_rows)}"
        for at, (row, wanted) in enumerate(zip(rows, wanted_rows), (first or 0) + 1):
            yield table.page, at, row == wanted, f"{row}, and the JSON has {wanted}"
    is_drawn = os.path.exists(f"{TOP}/{time_plot.PICTURE}") and picture(figures) == read(time_plot.PICTURE)
    yield "docs/performance.md", 1, is_drawn, f"{time_plot.PICTURE} isn't the plot of the JSON"


def read(path: str) -> str:
    """The text of a file of the repository."""
    with open(f"{TOP}/{path}", encoding="utf-8") as file:
        return file.read()


def picture(figures: Figures) -> str:
    """The plot of CPU time over nodes."""
    return time_plot.plot(figures.at("beside_abc/netlists"))


def filled(figures: Figures, page: str, text: str) -> str:
    """The text of a page with the figures of the JSON."""
    for place in STATED:
        found = re.search(place.pattern, text) if place.page == page else None
        for number in range(len(place.keys) if found else 0, 0, -1):
            assert found
            if not figures.has(place.keys[number - 1]):
                continue
            text = text[: found.start(number)] + figures.written(place.keys[number - 1]) + text[found.end(number) :]
    lines = text.splitlines()
    for table in TABLES:
        first = table.place(lines) if table.page == page else None
        if first is not None:
            lines[first : first + len(rows_at(lines, first))] = table.texts(figures)
    return "\n".join(lines) + "\n"
