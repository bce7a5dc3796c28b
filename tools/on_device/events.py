"""Random scripts for designs in Verilog."""

from __future__ import annotations

import json
import random
from typing import Any

from on_device.calls import FLOW, Room, must

from tlutflow.text import read_text, write_text
from tlutflow.verilog.recipe import PREPARATION

# The cycles of a script, and after how many of them parameters get new values. The larger design has a chain of thousands of bits, and all
# of its logic changes at each step of it, which takes Icarus minutes.
CYCLES, EVERY, SELDOM = 96, 12, {"kernel": 48}


def number(draw: random.Random, width: int) -> str:
    """A random value of this many bits, with few ones, many, or about half."""
    dense = draw.choice((1, 4, 7))
    return str(sum((draw.randrange(8) < dense) << place for place in range(width)))


def events(ports: list[dict[str, Any]], parameters: set[str], name: str) -> str:
    """Random events of a design: inputs of each cycle, of which every other one has values that were there before, and now and then new
    parameters."""
    draw, every = random.Random(name), SELDOM.get(name, EVERY)
    widths = {it["name"]: len(it["bits"]) for it in ports if it["direction"] == "input" and it["name"] != "clk"}
    inputs, held = ([name for name in widths if (name in parameters) == wanted] for wanted in (False, True))
    seen: dict[str, list[str]] = {name: [] for name in inputs}
    lines = ["image"]
    for cycle in range(CYCLES):
        if cycle % every == every - 1:
            lines.append("set " + " ".join(f"{name}={number(draw, widths[name])}" for name in held))
        words = []
        for port in inputs:
            old = draw.randrange(2) and seen[port]
            seen[port].append(draw.choice(seen[port]) if old else number(draw, widths[port]))
            words.append(f"{port}={seen[port][-1]}")
        lines.append(" ".join(["cycle", *words]))
    return "\n".join([*lines, ""])


def prepared(source: str, name: str, room: Room) -> None:
    """Writes the netlist of a design with one preparation, its parameters and a random script: NAME.blif, NAME.par and NAME.scr."""
    must([FLOW, "verilog", "--abc", PREPARATION, source, "--top", name, "--out", room.folder])
    ports = json.loads(read_text(room.path(f"{name}.ports.json")))["ports"]
    parameters = {line.split()[0].split("[")[0] for line in read_text(room.path(f"{name}.par")).splitlines()}
    words = [FLOW, "script", room.path(f"{name}.blif"), room.path(f"{name}.par")]
    write_text(room.path(f"{name}.scr"), must(words, events(ports, parameters, name)))
