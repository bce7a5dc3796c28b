"""Scripts from events with values of buses."""

from __future__ import annotations

import os
from typing import Iterator

from tlutflow.bus import Bus
from tlutflow.buses import assigned
from tlutflow.faults import Fault
from tlutflow.parameters import Interface, read_interface
from tlutflow.runs.script import PACED_WORDS, WORDS, bits_text
from tlutflow.text import Line, count, logical_lines, read_text, write_text


class Writer:
    """Creates lines of a script. Keeps the values of the inputs."""

    def __init__(self, interface: Interface):
        self.regular, self.clocks = interface.regular, interface.clocks
        self.inputs = interface.buses(interface.regular)
        self.parameters = interface.buses(interface.parameters)
        self.kept = {name: 0 for name in interface.regular}

    def refuse(self, words: list[str], others: dict[str, Bus], told: str) -> None:
        """Refuses the clock, and a name that another event is for."""
        for name in (word.rpartition("=")[0] for word in words):
            if name in self.clocks:
                raise Fault(f"{name} is the clock: each cycle and tick has one edge of it")
            if name in others or any(name in bus.nets for bus in others.values()):
                raise Fault(f"{name} is {told}")

    def line_of(self, event: Line) -> str:
        """The line of an event."""
        word, others = event.tokens[0], event.tokens[1:]
        if word in ("cycle", "tick"):
            self.kept.update(self.inputs_of(word, others))
            return f"{word} {bits_text([self.kept[name] for name in self.regular])}"
        if word in ("set", "ask"):
            self.refuse(others, self.inputs, f"an input: use {'cycle' if word == 'set' else 'tick'}")
            return assigning_line(word, others, self.parameters)
        if word not in WORDS:
            raise Fault(f"{word} isn't an event; the events are: {', '.join([*WORDS, *PACED_WORDS])}")
        if word == "upset" and not (len(others) == 1 and others[0].isdecimal()):
            raise Fault("upset takes one address, a decimal number")
        if word != "upset" and others:
            raise Fault(f"{word} takes no arguments")
        return " ".join(event.tokens)

    def inputs_of(self, word: str, others: list[str]) -> dict[str, int]:
        """What a cycle or a tick gives the inputs: values by their names, or all digits as in a script."""
        if len(others) == 1 and (others[0] == "-" or not set(others[0]) - set("01")):
            digits = others[0].strip("-")
            if len(digits) != len(self.regular):
                there = ", ".join(bus.title for bus in self.inputs.values()) or "none"
                raise Fault(f"{word} {others[0]} has {count(len(digits), 'digit')}, and the inputs have {len(self.regular)}: {there}")
            return {name: int(digit) for name, digit in zip(self.regular, digits)}
        self.refuse(others, self.parameters, f"a parameter: use {'set' if word == 'cycle' else 'ask'}")
        return assigned(others, self.inputs, "inputs")


def assigning_line(word: str, words: list[str], parameters: dict[str, Bus]) -> str:
    """The line of a set, or of an ask."""
    bits = assigned(words, parameters, "parameters")
    if not bits:
        raise Fault(f"{word} takes one NAME=VALUE or more")
    return " ".join([word, *(f"{net}={bit}" for net, bit in bits.items())])


def script_lines(text: str, file: str, interface: Interface) -> Iterator[str]:
    """The lines of the script that events are; `file` is the name of their text in a fault."""
    writer = Writer(interface)
    for event in logical_lines(text):
        try:
            yield writer.line_of(event)
        except Fault as fault:
            raise Fault(f"line {event.number} of {file}: {fault}") from None


def has_names(text: str, interface: Interface) -> bool:
    """Whether a text has events with values of buses, and isn't a script already."""
    for line in logical_lines(text):
        word, pairs = line.tokens[0], [it.rpartition("=") for it in line.tokens[1:]]
        if word in ("cycle", "tick") and (not pairs or any(equals for _, equals, _ in pairs)):
            return True
        if word in ("set", "ask") and any(equals and (name not in interface.parameters or value not in ("0", "1")) for name, equals, value in pairs):
            return True
    return False


def bit_script(script: str, netlist: str, parameters: str, made: str) -> str:
    """The path of a script as `tlut` plays it: this one, or `made`, which is written if this one has values of buses."""
    interface, text = read_interface(netlist, parameters), read_text(script)
    if not has_names(text, interface):
        return script
    if os.path.abspath(script) == os.path.abspath(made):
        raise Fault(f"{script} has values of buses, and a build writes the script as tlut plays it to this very file: rename yours")
    write_text(made, "".join(f"{line}\n" for line in script_lines(text, script, interface)))
    return made
