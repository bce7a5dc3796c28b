"""A mapped circuit as a drawing in the language of Graphviz."""

from __future__ import annotations

from typing import Iterable, Optional

from tlutflow.circuit import Circuit, Lut

TUNABLE, FIXED, LATCH, PORT, PATH = "#ffd08a", "#e8e8e8", "#cfe2ff", "#ffffff", "#d01c1c"
# At most so many parameters are named in a lut.
NAMED = 3

HEAD = """digraph {name} {{
  rankdir=LR; ranksep=0.6; nodesep=0.15;
  node [fontname="Helvetica" fontsize=10 shape=box style=filled margin="0.08,0.04"];
  edge [arrowsize=0.6 color="#606060"];"""


def quote(text: str) -> str:
    """A text in quotes; a line break is kept."""
    return '"' + text.replace("\\", "\\\\").replace('"', '\\"').replace("\n", "\\n") + '"'


def drawing(circuit: Circuit, cone: Optional[set[str]] = None) -> str:
    """The drawing of a circuit, or of the part with these nets."""
    path = circuit.longest_path(cone)
    steps = set(zip(path, path[1:]))
    shown = everything(circuit) if cone is None else cone
    lines = [HEAD.format(name=quote(circuit.name))]
    lines += [node(net, net, "ellipse", PORT, net in path) for net in circuit.inputs if net in shown]
    lines += [lut_node(circuit, lut, lut.net in path) for lut in circuit.luts if lut.net in shown]
    lines += latch_lines(circuit, shown, steps, path)
    lines += [edge(leaf, lut.net, (leaf, lut.net) in steps) for lut in circuit.luts if lut.net in shown for leaf in lut.leaves]
    lines += output_lines(circuit, shown, steps, path)
    return "\n".join([*lines, "}", ""])


def everything(circuit: Circuit) -> set[str]:
    """All nets of LUTs, latches and inputs."""
    return {*circuit.inputs, *circuit.lut_of, *(latch.state for latch in circuit.latches)}


def node(name: str, label: str, shape: str, fill: str, on_path: bool, more: str = "") -> str:
    """A node of the drawing."""
    border = f' color="{PATH}" penwidth=2' if on_path else ""
    return f'  {quote(name)} [label={quote(label)} shape={shape} fillcolor="{fill}"{border}{more}];'


def edge(source: str, target: str, on_path: bool, more: str = "") -> str:
    """An edge of the drawing."""
    looks = (f'color="{PATH}" penwidth=2 ' if on_path else "") + more
    return f"  {quote(source)} -> {quote(target)}{f' [{looks.strip()}]' if looks else ''};"


def lut_node(circuit: Circuit, lut: Lut, on_path: bool) -> str:
    """A LUT: its net, its bits, and the parameters that they read."""
    read = circuit.parameters_in(circuit.support(lut))
    bits = f"bits {lut.first}..{lut.addresses[-1]}" if lut.size > 1 else f"bit {lut.first}"
    label = "\n".join(filter(None, [lut.net, bits, parameter_words(circuit, read)]))
    return node(lut.net, label, "box", TUNABLE if read else FIXED, on_path)


def parameter_words(circuit: Circuit, read: list[str]) -> str:
    """A short list of parameters: whole buses by their names."""
    words = []
    for bus in circuit.buses(circuit.pack.parameters).values():
        inside = [net for net in bus.nets if net in read]
        words += [bus.name] if len(inside) == bus.width else inside
    more = f" +{len(words) - NAMED}" if len(words) > NAMED else ""
    return ", ".join(words[:NAMED]) + more


def latch_lines(circuit: Circuit, shown: set[str], steps: set[tuple[str, str]], path: list[str]) -> Iterable[str]:
    """The latches, and the dashed edges of their next states, which don't push them to the right."""
    for latch in circuit.latches:
        if latch.state in shown:
            label = f"{latch.state}\nlatch, starts at {latch.start}"
            yield node(latch.state, label, "box3d", LATCH, latch.state in path)
            if latch.source in shown:
                yield edge(latch.source, latch.state, (latch.source, latch.state) in steps, "style=dashed constraint=false")


def output_lines(circuit: Circuit, shown: set[str], steps: set[tuple[str, str]], path: list[str]) -> Iterable[str]:
    """The outputs whose roots are drawn."""
    for output, root in circuit.roots.items():
        if root in shown:
            name = f"output {output}"
            yield node(name, output, "ellipse", PORT, path[-1:] == [output], " peripheries=2")
            yield edge(root, name, (root, output) in steps)
