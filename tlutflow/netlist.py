"""Netlists in BLIF: the library that a text has, and the latches of the whole hierarchy."""

from __future__ import annotations

from dataclasses import dataclass, field
from typing import Callable, Iterator, Optional

from tlutflow.faults import Fault
from tlutflow.text import Line, logical_lines, read_text


@dataclass(frozen=True)
class Cover:
    """A cover: the names of its inputs and of its output, and its rows as pairs of the inputs' cells and the output's character."""

    inputs: list[str]
    output: str
    rows: list[tuple[str, str]] = field(default_factory=list)


@dataclass(frozen=True)
class Latch:
    """A latch: the name of its next state, its name, its control or None, and its initial value, which is 2 if it has none."""

    source: str
    state: str
    control: Optional[str]
    init: str

    @property
    def start(self) -> int:
        """The value at which it starts."""
        return int(self.init == "1")


@dataclass(frozen=True)
class Subckt:
    """A model that is placed: its name, and the actual of each formal."""

    model: str
    connections: dict[str, str]


@dataclass
class Model:
    """A model with its ports, and its commands by kind, each in line order."""

    name: str
    inputs: list[str] = field(default_factory=list)
    outputs: list[str] = field(default_factory=list)
    clocks: list[str] = field(default_factory=list)
    covers: list[Cover] = field(default_factory=list)
    latches: list[Latch] = field(default_factory=list)
    subckts: list[Subckt] = field(default_factory=list)
    # The names of each `.inputs` line. A template has its configuration bits by tables there.
    input_lines: list[list[str]] = field(default_factory=list)

    def all_inputs(self) -> list[str]:
        """The names of `.inputs`, and then those of `.clock` that aren't there."""
        return self.inputs + [name for name in self.clocks if name not in self.inputs]


@dataclass(frozen=True)
class FlatLatch:
    """A latch of the flat circuit: the net of its state, that of its control or None, and its value at the start."""

    net: str
    control: Optional[str]
    start: int


@dataclass(frozen=True)
class Library:
    """The models of a text; the first is the main model."""

    file: str
    models: list[Model]

    @property
    def main(self) -> Model:
        """The main model."""
        return self.models[0]

    def flat_latches(self) -> list[FlatLatch]:
        """The latches in flat order: an instance's own in line order, then those of the instances that it places."""
        named = {model.name: model for model in reversed(self.models)}
        found: list[FlatLatch] = []
        # The instances that wait: the model, its path, and what a name in it is called at the top.
        waiting: list[tuple[Model, str, Callable[[str], str]]] = [(self.main, "", lambda name: name)]
        while waiting:
            model, path, net_of = waiting.pop()
            for it in model.latches:
                found.append(FlatLatch(path + it.state, it.control and net_of(it.control), it.start))
            for ordinal, placed in reversed(list(enumerate(model.subckts))):
                if placed.model not in named or path.count("/") > len(named):
                    raise Fault(f"{self.file}: the models can't be flattened; ./tlut reports why")
                below = f"{path}{ordinal}/"
                waiting.append((named[placed.model], below, instance_nets(placed, below, net_of)))
        return found

    def clock_nets(self) -> list[str]:
        """The names of the main model's `.clock`, and the nets of the latch controls, each once."""
        controls = [it.control for it in self.flat_latches() if it.control]
        return list(dict.fromkeys(self.main.clocks + controls))


def instance_nets(placed: Subckt, path: str, above: Callable[[str], str]) -> Callable[[str], str]:
    """How the names of an instance are called at the top: a connected formal is its actual."""
    return lambda name: above(placed.connections[name]) if name in placed.connections else path + name


def read_library(path: str) -> Library:
    """The library of a file in BLIF, or in AIGER's ASCII form."""
    text = read_text(path)
    if text.startswith("aag "):
        # The reader of AIGER makes a library, so it imports this module.
        from tlutflow.aiger import parse_aiger

        return parse_aiger(text, path)
    return parse_library(text, path)


def parse_library(text: str, file: str) -> Library:
    """The library of a text; `file` is its name in a fault."""
    models: list[Model] = []
    cover: Optional[Cover] = None
    for line in logical_lines(text):
        word = line.tokens[0]
        try:
            if not word.startswith("."):
                read_row(cover, line.tokens)
                continue
            cover = None
            if word == ".model":
                models.append(Model(line.tokens[1]))
            elif word != ".end":
                cover = read_command(models[-1], line)
        except (IndexError, ValueError):
            raise Fault(f"{file}: line {line.number} isn't valid in a netlist; ./tlut reports what is wrong with it") from None
    if not models:
        raise Fault(f"{file}: no .model: it isn't a netlist in BLIF")
    return Library(file, models)


def read_row(cover: Optional[Cover], tokens: list[str]) -> None:
    """Adds a row to a cover."""
    if cover is None or len(tokens) > 2:
        raise ValueError
    cells = tokens[0] if len(tokens) == 2 else ""
    if len(cells) != len(cover.inputs):
        raise ValueError
    cover.rows.append((cells, tokens[-1]))


def read_command(model: Model, line: Line) -> Optional[Cover]:
    """Adds a line to the open model, and returns its cover if it begins one."""
    word, names = line.tokens[0], line.tokens[1:]
    if word == ".inputs":
        model.inputs += names
        model.input_lines.append(names)
    elif word == ".outputs":
        model.outputs += names
    elif word == ".clock":
        model.clocks += names
    elif word == ".names":
        model.covers.append(Cover(names[:-1], names[-1]))
        return model.covers[-1]
    elif word == ".latch":
        model.latches.append(read_latch(names))
    elif word == ".subckt":
        pairs = [it.split("=", 1) for it in names[1:]]
        model.subckts.append(Subckt(names[0], dict(pairs)))
    else:
        raise ValueError
    return None


def read_latch(words: list[str]) -> Latch:
    """The latch of a line with these words after `.latch`."""
    source, state, *others = words
    control = others[1] if len(others) >= 2 and others[1] != "NIL" else None
    init = others[-1] if len(others) in (1, 3) else "2"
    if len(others) > 3 or init not in "0123":
        raise ValueError
    return Latch(source, state, control, init)


def gate_inputs(library: Library) -> Iterator[str]:
    """What the covers and latches of the main model read, controls apart."""
    for cover in library.main.covers:
        yield from cover.inputs
    for latch in library.main.latches:
        yield latch.source
