"""How the pages show what tools/device_costs.py measured: the rows of tables, the figures of sentences, and what follows from the measured
figures. `docs/figures/device.json` has all of it."""

from __future__ import annotations

from statistics import geometric_mean
from typing import Any, Callable

README, DEVICE, STUDIES, TESTING = "README.md", "docs/device.md", "docs/case-studies.md", "docs/testing.md"
# What a mapping has, in the order in which it is measured.
SIZES = ("sites", "depth", "luts", "bits")
Figures = dict[str, Any]
Rows = list[list[str]]


def number(value: float) -> str:
    """A number with its thousands apart, or a ratio."""
    return f"{value:,}" if isinstance(value, int) else f"{value:.2f}"


def least(registers: list[dict[str, Any]], what: str) -> dict[str, Any]:
    """The counts of the source by the command that has the fewest of something."""
    return min(registers, key=lambda it: int(it[what]))


def built(design: Figures) -> list[int]:
    """The sites and the depth of a design as it is built."""
    found: list[int] = design["counts"][str(design["k"])][design["rule"]]
    return found[:2]


def ours_of(design: Figures) -> Figures:
    """The counts of a design as it is built."""
    k, rule = str(design["k"]), design["rule"]
    return {**dict(zip(SIZES, design["counts"][k][rule])), "flip_flops": design["plays"][k]["flip_flops"]}


def theirs_of(design: Figures) -> Figures:
    """The counts of the source by the command with the fewest LUTs, and its sites by the one with the fewest sites."""
    return {**least(design["registers"], "luts"), "sites": least(design["registers"], "sites")["sites"]}


def comparison(figures: Figures) -> Rows:
    """The six designs beside registers, and the geometric means."""
    rows = []
    for name, it in figures["sites"].items():
        theirs, (ours, depth) = theirs_of(it), built(it)
        cells = [*(theirs[what] for what in ("luts", "sites", "carries", "flip_flops", "depth")), ours, it["plays"][str(it["k"])]["flip_flops"], depth]
        rows.append([name, str(it["k"]), f"`{it['rule']}`", *map(number, [*cells, ours / theirs["luts"], ours / theirs["sites"]])])
    means = figures["means"]
    return [*rows, [f"geometric mean of {len(rows)}", *[""] * 10, number(means["luts"]), number(means["sites"])]]


def by_size(figures: Figures) -> Rows:
    """The sites, LUTs and depth of each design at each K by each rule, and by ABC with the parameters as inputs."""
    rows = []
    for name, it in figures["sites"].items():
        by = {f"`{rule}`": [at[rule] for at in it["counts"].values()] for rule in ("tlut", "compact")}
        for title, sizes in {**by, "ABC `if`": list(it["abc"].values())}.items():
            rows.append([name, title, *(number(at[place]) for at in sizes for place in (0, 2, 1))])
    return rows


def changes(figures: Figures) -> Rows:
    """How many CFGLUT5 a chain has, the slices that hold them, and the periods of a change."""
    many = {name: it["plays"][str(it["k"])]["cfglut5"] for name, it in figures["sites"].items()}
    return [[name, number(it), number(-(-it // 4)), number(32 * it)] for name, it in many.items()]


FORMS = {"registers": "registers", "hdl": "`hdl --device ice40`", "device": "`device`, fixed values"}


def clock_rates(figures: Figures) -> Rows:
    """The clock rates on an iCE40."""
    return [
        [name, title, number(it[form]["luts"]), number(it[form]["flip_flops"]), f"{it[form]['mhz']:.0f}"]
        for name, it in figures["clocks"].items()
        for form, title in FORMS.items()
    ]


def way(words: str) -> str:
    """The words of `flow hdl` as a row names them."""
    return f"`{words}`"


def ice40(figures: Figures) -> Rows:
    """The ports on an iCE40, beside registers."""
    rows = []
    for name, it in figures["ports"].items():
        theirs = it["registers"]
        carries = f" and {number(theirs['carries'])} carries" if theirs["carries"] else ""
        rows.append([f"{name}, {it['parameters']} parameters", "-", "registers", f"{number(theirs['luts'])}{carries}", number(theirs["flip_flops"])])
        for k, at in it["sizes"].items():
            those = "all" if at["rewritable"] == at["luts"] else number(at["rewritable"])
            about = f"{number(at['luts'])} LUTs, {those} of them rewritable, {number(at['bits'])} bits that change"
            for words, cells in at["rows"].items():
                if not words.startswith("xilinx"):
                    rows.append([about, k, way(words), number(cells["luts"]), number(cells["flip_flops"])])
                    about = ""
    return rows


def xilinx(figures: Figures) -> Rows:
    """The ports on a Xilinx device, each LUT in a site of its own."""
    rows = []
    for name, it in figures["ports"].items():
        for k, at in it["sizes"].items():
            for words in ("random", "chain"):
                cells = at["rows"][f"xilinx {words}"]
                rows.append([name, k, way(words), *(number(cells[what]) for what in ("luts", "flip_flops", "cfglut5"))])
                name = ""
    return rows


def ratios(figures: Figures, way_of: str, k: str) -> dict[str, float]:
    """How many LUTs of an iCE40 a port takes for each LUT of the mapped circuit, by design."""
    found = {name: it["sizes"][k] for name, it in figures["ports"].items() if k in it["sizes"]}
    return {name: at["rows"][way_of]["luts"] / at["luts"] for name, at in found.items()}


def of_sites(figures: Figures) -> Figures:
    """What follows from the six designs: the means, which are above 1, what was played, and the periods of changes."""
    found, to_luts, to_sites = figures["sites"], {}, {}
    for name, it in found.items():
        sites, theirs = built(it)[0], theirs_of(it)
        to_luts[name], to_sites[name] = sites / theirs["luts"], sites / theirs["sites"]
    beside = {name: {"ours": ours_of(it), "theirs": theirs_of(it), "abc": dict(zip(SIZES, min(it["abc"].values())))} for name, it in found.items()}
    played = [at for it in found.values() for at in it["plays"].values()]
    periods = [32 * it["plays"][str(it["k"])]["cfglut5"] for it in found.values()]
    above = {name: ratio for name, ratio in to_sites.items() if ratio > 1 or to_luts[name] > 1}
    return {
        "means": {"luts": geometric_mean(to_luts.values()), "sites": geometric_mean(to_sites.values())},
        "beside": beside,
        "above": ", ".join(f"`{name}` ({ratio:.2f})" for name, ratio in above.items()) or "none",
        "played": {"circuits": len(played), "lines": sum(it["lines"] for it in played), "cycles": sum(it["cycles"] for it in played)},
        "periods": {"least": min(periods), "most": max(periods)},
        "microseconds": {"least": min(periods) / 100, "most": max(periods) / 100},
    }


def of_ports(figures: Figures) -> Figures:
    """What follows from the ports: LUTs of an iCE40 for each LUT, what `random` adds on a Xilinx device, and what words add to a chain."""
    ways = {"chain": "chain", "random": "random", "distinct": "random --bits distinct", "words": "random --word 8", "both": "random --word 8 --bits distinct"}
    for_each = {k: {key: ratios(figures, words, k) for key, words in ways.items()} for k in ("4", "6")}
    added, longer = [], []
    for it in figures["ports"].values():
        for at in it["sizes"].values():
            rows = at["rows"]
            if at["rewritable"] >= 12:
                added.append((rows["xilinx random"]["luts"] - rows["xilinx chain"]["luts"]) / at["rewritable"])
            longer.append(100 * (rows["random --word 8"]["luts"] / rows["chain"]["luts"] - 1))
    bounds = [round(max(longer)), round(min(longer))]
    return {"for_each": for_each, "added": {"least": min(added), "most": max(added)}, "longer": {"least": bounds[1], "most": bounds[0]}}


def of_clocks(figures: Figures) -> Figures:
    """What follows from the clock rates: those of the other forms beside that with registers."""
    found = figures["clocks"].values()
    rates = {form: [it[form]["mhz"] / it["registers"]["mhz"] for it in found] for form in FORMS}
    return {"rates": {form: {"least": min(some), "most": max(some)} for form, some in rates.items()}}


def derived(figures: Figures) -> Figures:
    """What follows from the figures that are there."""
    found: Figures = {}
    for part, follow in (("sites", of_sites), ("ports", of_ports), ("clocks", of_clocks)):
        found.update(follow(figures) if part in figures else {})
    return found


EACH, KERNEL, ROUNDS = "for_each", "beside/kernel", "beside/rounds"
# What pairs leave of a design's LUTs, and of its source's.
LEFT = ("ours/luts", "ours/sites", "theirs/luts", "theirs/sites", "theirs/carries")
OTHERS = ("theirs/sites", "theirs/flip_flops", "abc/sites")
FIXED = "Yosys creates <> cells SB_LUT4 for <> LUTs, since some are simpler under fixed values, and nextpnr places <> logic cells"
# Sentences: the page, a pattern in which `<>` is a figure and `<..>` some words, and where the figures are.
STATED: list[tuple[str, str, tuple[str, ...]]] = [
    (DEVICE, "the circuits take <> of the registers' LUTs as Yosys counts them, and <> of their sites", ("means/luts:.2f", "means/sites:.2f")),
    (DEVICE, "Above 1 in one of the two columns: <..>. No flip-flop", ("above",)),
    (README, "is the parameter takes <> sites and <> flip-flops", (f"{ROUNDS}/ours/sites", f"{ROUNDS}/ours/flip_flops")),
    (README, "With the key in registers it takes <> and <> by Yosys, and ABC's `if` needs <> sites", tuple(f"{ROUNDS}/{it}" for it in OTHERS)),
    (DEVICE, "its <> LUTs fill <> sites, and the source's <> LUTs <> sites and <> carries", tuple(f"{KERNEL}/{it}" for it in LEFT)),
    (DEVICE, "its depth is <> LUTs where the source has <> and carries", (f"{KERNEL}/ours/depth", f"{KERNEL}/theirs/depth")),
    (DEVICE, "<> circuits, <> lines of their Verilog and <> cycles of their netlists, all as the run's", ("played/circuits", "played/lines", "played/cycles")),
    (TESTING, "`<> circuits, <> lines and <> cycles, all as the run's`", ("played/circuits", "played/lines", "played/cycles")),
    (DEVICE, "that is <> to <> LUTs for each rewritable LUT", ("added/least:.2f", "added/most:.2f")),
    (DEVICE, "The filter takes <> LUTs and <> flip-flops on an iCE40", ("ports/fir/sizes/4/rows/chain/luts", "ports/fir/sizes/4/rows/chain/flip_flops")),
    (DEVICE, "with its parameters as registers takes <> and <>", ("ports/fir/registers/luts", "ports/fir/registers/flip_flops")),
    (DEVICE, "It takes <> to <> percent more LUTs than `chain`", ("longer/least", "longer/most")),
    (
        DEVICE,
        "takes <> (fir), <> (fir8) and <> (vote8) LUTs for each LUT of the mapped circuit at K = 4, and <> (fir) and <> (vote8) at K = 6",
        (*(f"{EACH}/4/chain/{name}:.1f" for name in ("fir", "fir8", "vote8")), *(f"{EACH}/6/chain/{name}:.1f" for name in ("fir", "vote8"))),
    ),
    (
        DEVICE,
        "There `random` takes <> (fir) and <> (fir8), with `--bits distinct` <> and <>, with `--word 8` <> and <>, and with both <> and <>",
        tuple(f"{EACH}/4/{way}/{name}:.1f" for way in ("random", "distinct", "words", "both") for name in ("fir", "fir8")),
    ),
    (DEVICE, "runs at <> to <> of the clock rate that the source has with registers", ("rates/hdl/least:.2f", "rates/hdl/most:.2f")),
    (DEVICE, "and the one for fixed values at <> to <> of it", ("rates/device/least:.2f", "rates/device/most:.2f")),
    (DEVICE, FIXED, tuple(f"fixed/fir/{it}" for it in ("cells", "luts", "placed"))),
    (STUDIES, "And a change has its price: <> to <> periods", ("periods/least", "periods/most")),
    (STUDIES, "At 100 MHz that is <> to <> µs", ("microseconds/least:.0f", "microseconds/most:.0f")),
]
# The tables: the part, the page, how the first line begins, and the rows.
TABLES: list[tuple[str, str, str, Callable[[Figures], Rows]]] = [
    ("sites", DEVICE, "| Design | K | rule | registers: LUTs |", comparison),
    ("clocks", DEVICE, "| Design | form |", clock_rates),
    ("ports", DEVICE, "| Design | K | Configuration, `--no-pairs` |", xilinx),
    ("ports", DEVICE, "| Design | K | Configuration | LUTs |", ice40),
    ("sites", STUDIES, "| Design | rule | K 4: sites |", by_size),
    ("sites", STUDIES, "| Design | CFGLUT5 |", changes),
]


def shown(figures: Figures) -> list[str]:
    """The rows of all tables that were measured, as the pages have them."""
    lines = []
    for part, page, head, rows in TABLES:
        if part in figures:
            lines += [f"{page}: {head}", *("| " + " | ".join(row) + " |" for row in rows(figures)), ""]
    played = figures.get("played")
    return [*lines, f"{played['circuits']} circuits, {played['lines']:,} lines and {played['cycles']:,} cycles, all as the run's"] if played else lines
