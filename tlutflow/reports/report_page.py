"""The report of a build: one HTML page with all of it, which opens without a network."""

from __future__ import annotations

import json
from html import escape
from typing import Any, Iterable, Optional
from urllib.parse import quote

from tlutflow.build_files import PAGE_MARK, page_text
from tlutflow.built import Built
from tlutflow.buses import buses_of
from tlutflow.changes import EXHAUSTIVE, spread
from tlutflow.circuit import Circuit
from tlutflow.devices.count import COLUMNS as DEVICE_COLUMNS
from tlutflow.preparing.trials import RULE_NAMES
from tlutflow.reports.circuit_view import view_of
from tlutflow.reports.plots import RATES, plot, ticks_of
from tlutflow.reports.statistics import KINDS, Statistics, kind, statistics
from tlutflow.text import count

SECTIONS = [
    ("sizes", "Sizes"),
    ("device", "Device"),
    ("path", "Critical path"),
    ("picture", "Circuit"),
    ("tables", "LUTs"),
    ("parameters", "Parameters"),
    ("changes", "Changes"),
    ("run", "Run"),
    ("preparations", "Preparations"),
    ("checks", "Checks"),
    ("files", "Files and commands"),
]
COLUMNS = [("tlut", "tlut"), ("compact", "tlut --compact"), ("inputs", "parameters as inputs"), ("if", "ABC if"), ("if -a", "ABC if -a")]
# How bytes of a file's name are kept that are no UTF-8.
UNDECODED = "surrogateescape"
# So many rows of preparations are shown at once.
FIRST = 12


def number(value: Any) -> str:
    """A number with its thousands apart, or a text as it is."""
    text = str(value)
    return f"{int(text):,}" if text.isdigit() else escape(text)


def table(head: list[str], rows: Iterable[tuple[list[str], str]], texts: tuple[int, ...] = ()) -> str:
    """An HTML table: its head and rows of cells that are HTML, each row with a class. The columns `texts` are left-aligned."""

    def row(cells: list[str], tag: str, style: str) -> str:
        named = f' class="{style}"' if style else ""
        text = ' class="text"'
        return f"<tr{named}>" + "".join(f"<{tag}{text if place in texts else ''}>{cell}</{tag}>" for place, cell in enumerate(cells)) + "</tr>"

    body = "".join(row(cells, "td", style) for cells, style in rows)
    return f'<div class="wide"><table><thead>{row(head, "th", "")}</thead><tbody>{body}</tbody></table></div>'


def cards(built: Built, found: Statistics) -> str:
    """The key figures."""
    shown = [(number(found.tables), f"LUTs of up to {built.k} inputs"), (number(found.depth), "logic levels, the least for this netlist's graph")]
    shown += [(number(found.bits), "configuration bits"), (number(found.parameters), "parameter bits"), (number(found.latches), "flip-flops")]
    if built.changes:
        shown.append((number(spread(built.changes["a value"])[1]), "bits rewritten by a new value, the median"))
    return '<div class="cards">' + "".join(f'<div class="card"><b>{value}</b><span>{words}</span></div>' for value, words in shown) + "</div>"


def sizes_part(built: Built) -> str:
    """The sizes at each K beside ABC's."""
    columns = [(key, title) for key, title in COLUMNS if all(key in row for row in built.sizes.values())]
    head = ["K", *["LUTs", "depth", "bits"] * len(columns)]
    above = "<tr><th></th>" + "".join(f'<th colspan="3" class="group">{title}</th>' for _, title in columns) + "</tr>"
    rows = []
    for k, found in built.sizes.items():
        cells = [k, *(number(cell) for key, _ in columns for cell in found[key])]
        rows.append((cells, "best" if k == str(built.k) else ""))
    note = "<b>tlut</b> aims at few bits and <b>tlut --compact</b> at few LUTs, both at the least depth. In the next columns the parameters are ordinary inputs: mapped by tlut --compact"
    note += ", and by ABC's mapper for depth (if) and for area (if -a) on the same netlist." if "if" in dict(columns) else ". ABC isn't installed."
    best = built.preparation.get("abc")
    if best:
        note += f" Over all preparations, ABC's best at K {built.k} is {number(best[2])} LUTs at depth {escape(best[3])} ({escape(best[1])}, after {escape(best[0])})."
    return f'<p class="soft">{note}</p>' + table(head, rows).replace("<thead>", f"<thead>{above}")


def device_part(built: Built) -> Optional[str]:
    """What a device counts, at each K by each rule, and beside the source with its parameters in registers. None without a device."""
    found = built.device
    if not found:
        return None
    head = ["K", "rule", f"{found['unit']}s", "depth", "LUTs", "bits"]
    rows = [
        ([k, RULE_NAMES[rule], *(number(cell) for cell in cells)], "best" if (k, rule) == (str(built.k), built.rule) else "")
        for k, at in found["counts"].items()
        for rule, cells in at.items()
    ]
    shown = f'<p class="soft">{escape(found["told"])}</p>' + table(head, rows, (1,))
    if "rows" not in found:
        return f"{shown}<p>Yosys counts no cells here: it isn't installed, or the source is AIGER.</p>"
    measured = [([escape("this circuit" if title == "mapped" else f"registers, {title}"), *(number(cell) for cell in cells)], "" if place else "best") for place, (title, cells) in enumerate(found["rows"])]
    note = "Cells as Yosys synthesises them. With its parameters in registers the source loads them through a chain of flip-flops. Two LUTs share a site in both where they may."
    return shown + f'<p class="soft">{note} {escape(found["text"])}.</p>' + table(["source", *DEVICE_COLUMNS], measured)


def path_part(circuit: Circuit, view: dict[str, Any]) -> str:
    """The critical path from its start to its end."""
    path = circuit.longest_path()
    if not path:
        return "<p>The circuit has no LUTs.</p>"
    nodes = {node["name"]: node for node in view["nodes"] if node["kind"] in ("lut", "tunable")}
    steps = []
    for place, net in enumerate(path):
        node = nodes.get(net) if 0 < place < len(path) - 1 or place == 0 and net in nodes and circuit.lut_of[net].leaves == [] else None
        if node is None:
            steps.append(f'<li><span class="step"><b>{escape(net)}</b></span></li>')
            continue
        style = "step tunable" if node["kind"] == "tunable" else "step"
        words = node.get("params", "no parameters")
        shown = f'<a data-show="{escape(net)}">{escape(net)}</a>'
        steps.append(f'<li><span class="{style}" title="over {escape(node["support"])}">{shown}<small>{escape(words)}</small></span></li>')
    start = "flip-flop" if path[0] in [latch.state for latch in circuit.latches] else "input"
    end = "output" if path[-1] in circuit.roots else "flip-flop"
    words = f"From {start} <b>{escape(path[0])}</b> through {count(circuit.depth, 'LUT')} to {end} <b>{escape(path[-1])}</b>."
    return f'<p>{words} Below each LUT are the parameters in its bits.</p><ol class="path">{"".join(steps)}</ol>' + path_table(circuit, nodes, path)


def path_table(circuit: Circuit, nodes: dict[str, dict[str, Any]], path: list[str]) -> str:
    """What each LUT of the path reads, and what its cone begins at."""
    rows = []
    for net in path:
        if net in nodes:
            node = nodes[net]
            reads = ", ".join(circuit.lut_of[net].leaves)
            rows.append(([escape(net), str(node["depth"]), escape(reads), escape(node.get("params", "none")), escape(node["support"])], ""))
    head = ["LUT", "level", "reads", "parameters in its bits", "ports and flip-flops in its cone"]
    return f"<details><summary>LUT by LUT</summary>{table(head, rows, (2, 3, 4))}</details>"


def picture_part() -> str:
    """The circuit as a picture."""
    kinds = [("#ffd08a", "LUT whose bits depend on parameters"), ("#e8e8e8", "LUT that never changes"), ("#cfe2ff", "flip-flop"), ("#ffffff", "input or output")]
    legend = "".join(f'<span><i style="background:{colour}"></i>{words}</span>' for colour, words in kinds)
    legend += '<span><i style="background:#d01c1c"></i>critical path</span>'
    buttons = '<button id="in">+</button><button id="out">&minus;</button><button id="fit">fit</button><button id="back">back</button>'
    tools = f'<label>Show <select id="choice"></select></label>{buttons}<input id="find" placeholder="net, then Enter" aria-label="a net to show">'
    return f'<div class="tools">{tools}</div><div class="legend">{legend}</div><div id="stage"></div><div id="about"></div>'


def bars(counts: dict[Any, int], words: str) -> str:
    """Bars of counts, each with its key."""
    most = max(counts.values(), default=1) or 1
    rows = "".join(f"<span>{escape(str(key))} {words}</span><i style='width:{100 * many / most:.1f}%'></i><span>{many:,}</span>" for key, many in counts.items())
    return f'<div class="bars">{rows}</div>'


def tables_part(circuit: Circuit, found: Statistics) -> str:
    """The LUTs by kind, by inputs and by level."""
    by_kind = {it: {"LUTs": found.tables_by_kind[it], "bits": found.bits_by_kind[it]} for it in KINDS}
    rows = [([escape(name), f"{it['LUTs']:,}", f"{it['bits']:,}"], "") for name, it in by_kind.items()]
    shapes: dict[int, dict[str, int]] = {}
    for it in circuit.luts:
        row = shapes.setdefault(len(it.leaves), dict.fromkeys(KINDS, 0))
        row[kind(circuit.support(it))] += 1
    sized = [([str(leaves), *(f"{shapes[leaves][name]:,}" for name in KINDS), f"{sum(shapes[leaves].values()):,}"], "") for leaves in sorted(shapes)]
    left = table(["what the bits depend on", "LUTs", "bits"], rows) + "<br>" + table(["inputs", *KINDS, "all"], sized)
    return f'<div class="two"><div>{left}</div><div><p class="soft">LUTs at each logic level</p>{bars(found.tables_by_depth, "")}</div></div>'


def parameters_part(circuit: Circuit, found: Statistics) -> str:
    """Which parameter is in which LUTs."""
    if not found.reach:
        return "<p>The netlist has no parameters.</p>"
    names = list(circuit.pack.parameters)
    tables: dict[str, list[str]] = {name: [] for name in names}
    for it in circuit.luts:
        for name in circuit.parameters_in(circuit.support(it)):
            tables[name].append(it.net)
    rows = []
    for bus in buses_of(names, circuit.ports).values():
        inside = {net for name in bus.nets for net in tables[name]}
        mask = sum(1 << names.index(name) for name in bus.nets)
        bits = sum(1 for support in circuit.supports if support & mask)
        value = bus.text(bus.number(circuit.pack.parameters))
        lists = "".join(parameter_lists(name, tables[name]) for name in bus.nets)
        rows.append(([escape(bus.title), number(value), f"{len(inside):,}", f"{bits:,}", f"<details><summary>bit by bit</summary>{lists}</details>"], ""))
    head = ["parameter", "initial value", "LUTs", "configuration bits", "in which LUTs"]
    return '<p class="soft">A LUT or bit counts if its function reads the parameter.</p>' + table(head, rows, (4,))


def parameter_lists(name: str, nets: list[str]) -> str:
    """The LUTs of a parameter's bit."""
    links = " ".join(f'<a data-show="{escape(net)}">{escape(net)}</a>' for net in nets)
    return f"<div><b>{escape(name)}</b>: {count(len(nets), 'LUT')} {links}</div>"


def changes_part(built: Built, found: Statistics) -> str:
    """How many bits changes rewrite, and how many ticks that takes."""
    if not built.changes:
        return "<p>Without parameters nothing is rewritten.</p>"
    rows = []
    for title, counts in (("one bit of a parameter flips", built.changes["a bit"]), ("a parameter gets a new value", built.changes["a value"])):
        rows.append(([title, f"{len(counts):,}", *(f"{it:,}" for it in spread(counts)), f"{found.bits:,}"], ""))
    shown = table(["change", "changes", "least", "median", "greatest", "of bits"], rows)
    counts = built.changes["a value"]
    ticks = ticks_of(counts)
    steps = [([str(rate), *(f"{it:,}" for it in ticks[rate]), f"{-(-found.bits // rate):,}"], "") for rate in RATES]
    shown += "<p>Ticks that a new value takes if the configuration port takes RATE bits a tick:</p>"
    shown += table(["RATE", "least", "median", "greatest", "rewriting all bits"], steps)
    drawing = plot(f"{built.name}, K {built.k}: a parameter gets a new value", counts, spread(counts)[1], ticks) if max(counts) else ""
    drawn = "all possible changes" if len(found.reach) <= EXHAUSTIVE else f"{len(counts):,} random changes"
    return f'<p class="soft">Measured by <code>tlut bits</code> on the pack, for {drawn}.</p>{shown}<div class="plot">{drawing}</div>'


def preparations_part(built: Built) -> str:
    """The preparations that were tried."""
    found = built.preparation
    sums = f"<p>Sums with parameters are tables, which data bits select: {escape(found['sums'])}.</p>" if found.get("sums") else ""
    if not found.get("rows"):
        return f"{sums}<p>One preparation was used, and nothing was measured (<code>--quick</code> or <code>--abc</code>).</p>"
    measured = found["rows"][0]["changed"] is not None
    head = ["preparation", "rule", "LUTs", "depth", "bits", *(["a change"] if measured else []), "seconds", "front"]
    rows = []
    for place, it in enumerate(found["rows"]):
        sizes = [it["tables"], it["depth"], it["bits"], *([it["changed"]] if measured else [])]
        cells = [escape(it["name"]), RULE_NAMES[it["rule"]], *(f"{size:,}" for size in sizes), f"{it['seconds']:.1f}", "&#9733;" if it["front"] else ""]
        rows.append((cells, "" if place else "best"))
    note = f"{found['tried']} preparations, mapped by both rules at K {built.k}; the best for {escape(built.aim)} is the first row. A star marks those that no other beats in LUTs, depth and bits. <code>flow prepare --list</code> prints the commands."
    more = table(head, rows[FIRST:], (1,)) if rows[FIRST:] else ""
    shown = table(head, rows[:FIRST], (1,)) + (f"<details><summary>{count(len(rows) - FIRST, 'more row')}</summary>{more}</details>" if more else "")
    out = "".join(f"<li>{escape(name)}: {escape(why)}</li>" for name, why in found["failures"])
    return f'{sums}<p class="soft">{note}</p>{shown}' + (f"<p>Left out:</p><ul>{out}</ul>" if out else "")


def checks_part(built: Built) -> str:
    """What was checked by whom."""
    words = {"ok": "yes", "open": "not shown", "missing": "not run"}
    rows = [([escape(what), escape(by), escape(told), f'<span class="{state}">{words[state]}</span>'], "") for what, by, told, state in built.checks]
    proved = "The program itself is proved: its outputs are the source's, cycle by cycle. Other programs make these checks on this design's files."
    return f'<p class="soft">{proved}</p>' + table(["what", "by", "it reports", "shown"], rows, (0, 1, 2, 3))


def files_part(built: Built) -> str:
    """The files, the commands and the versions."""
    rows = [([f'<a href="{quote(name, errors=UNDECODED)}"><code>{escape(name)}</code></a>', escape(what)], "") for name, what in built.files]
    commands = escape("\n".join(built.commands))
    versions = table(["program", "version"], [([escape(name), escape(it)], "") for name, it in built.versions.items()], (0, 1))
    return table(["file", "contents"], rows, (0, 1)) + f"<p>The commands that create them one by one:</p><pre>{commands}</pre>{versions}"


def page(built: Built, circuit: Circuit) -> str:
    """The whole page."""
    found, view = statistics(circuit), view_of(circuit)
    parts: dict[str, Optional[str]] = {
        "sizes": sizes_part(built),
        "device": device_part(built),
        "path": path_part(circuit, view),
        "picture": picture_part(),
        "tables": tables_part(circuit, found),
        "parameters": parameters_part(circuit, found),
        "changes": changes_part(built, found),
        "run": f"<pre>{escape(built.shown)}</pre>" if built.shown else None,
        "preparations": preparations_part(built),
        "checks": checks_part(built),
        "files": files_part(built),
    }
    links = "".join(f'<a href="#{key}">{title}</a>' for key, title in SECTIONS if parts[key])
    body = "".join(f'<section id="{key}"><h2>{title}</h2>{parts[key]}</section>' for key, title in SECTIONS if parts[key])
    title = f"{escape(built.name)}, K {built.k}"
    lead = f"{escape(built.preparation['summary'])}. Mapped by {RULE_NAMES[built.rule]}{prepared_words(built)}."
    told = "".join(f"<li>{escape(line)}</li>" for line in built.preparation.get("told", []))
    told = f'<ul class="told">{told}</ul>' if told else ""
    data = json.dumps(view, separators=(",", ":")).replace("<", "\\u003c")
    return (
        f'<!DOCTYPE html>\n<html lang="en">\n<head>\n<meta charset="utf-8">\n<meta name="viewport" content="width=device-width, initial-scale=1">\n<title>{title}</title>\n'
        f"<style>\n{page_text('report.css')}</style>\n</head>\n<body>\n<main>\n<h1>{title}</h1>\n<p class='soft'>{lead}</p>\n{told}{cards(built, found)}\n<nav>{links}</nav>\n{body}\n</main>\n"
        f"<script>{PAGE_MARK}{data};\n{page_text('report.js')}</script>\n</body>\n</html>\n"
    )



def prepared_words(built: Built) -> str:
    """Which preparation the netlist has."""
    best = built.preparation.get("best")
    return f", after the preparation {escape(best['name'])}" if best else ""
