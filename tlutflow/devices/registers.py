"""The alternative to a tunable circuit: the source with its parameters in registers, loaded by one chain, and what Yosys makes of both."""

from __future__ import annotations

import os

from tlutflow.bus import Bus
from tlutflow.devices.cells import Cells, counted, read_cells
from tlutflow.devices.families import Family
from tlutflow.text import write_text
from tlutflow.verilog.names import exact_identifier, free_name
from tlutflow.verilog.recipe import Step, quoted
from tlutflow.yosys import run_yosys

HELD = "held_in_registers"


def held_text(top: str, ports: dict[str, tuple[str, Bus]], parameters: dict[str, int]) -> str:
    """A module around another one: its ports that are parameters are registers, which a chain loads, and all others are its own. `ports`
    has the direction and the bus of each port, and `parameters` the values at the start by nets."""
    kept = [(name, bus) for name, (_, bus) in ports.items() if set(bus.nets) & set(parameters)]
    own = {name: (direction, bus) for name, (direction, bus) in ports.items() if not set(bus.nets) & set(parameters)}
    names = {word: free_name(f"cfg_{word}", ports) for word in ("clk", "we", "in", "kept")}
    total = sum(bus.width for _, bus in kept)
    start = "".join(str(parameters[net]) for _, bus in reversed(kept) for net in reversed(bus.nets))
    wires = [f".{exact_identifier(name)}({exact_identifier(name)})" for name in own]
    first = 0
    for name, bus in kept:
        wires.append(f".{exact_identifier(name)}({names['kept']}[{first + bus.width - 1}:{first}])")
        first += bus.width
    heads = [f"{direction} {bus.span} {exact_identifier(name)}" for name, (direction, bus) in own.items()]
    shifted = f"{{{names['in']}, {names['kept']}[{total - 1}:1]}}" if total > 1 else names["in"]
    chain = [
        f"reg [{total - 1}:0] {names['kept']} = {total}'b{start};",
        f"always @(posedge {names['clk']}) if ({names['we']}) {names['kept']} <= {shifted};",
    ]
    lines = [
        f"module {HELD} ({', '.join([*heads, *(f'input {names[it]}' for it in ('clk', 'we', 'in'))])});",
        *(chain if kept else []),
        f"{exact_identifier(top)} circuit ({', '.join(wires)});",
        "endmodule",
    ]
    return "\n".join(lines) + "\n"


def synthesised(steps: list[Step], top: str, family: Family, command: str, base: str) -> Cells:
    """What Yosys makes of a module by a command; its files begin with `base`."""
    last = [
        Step(f"{command} -top {top}", "the device's cells"),
        Step(f"write_json {quoted(base + '.json')}", "the cells to be counted"),
        Step(f"write_verilog -noattr {quoted(base + '.v')}", "the netlist for a simulation"),
    ]
    run_yosys([*steps, *last], os.path.dirname(base), "a device's count")
    return counted(read_cells(f"{base}.json", top), family.target == "xilinx")


def with_registers(steps: list[Step], top: str, ports: dict[str, tuple[str, Bus]], parameters: dict[str, int], family: Family, room: str) -> list[Cells]:
    """A module that some steps read with its parameters in registers, by each command of the family."""
    write_text(f"{room}/held.v", held_text(top, ports, parameters))
    steps = [*steps, Step(f"read_verilog {quoted(room + '/held.v')}", "the registers of the parameters")]
    return [synthesised(steps, HELD, family, command, f"{room}/held{number}") for number, command in enumerate(family.commands)]


def mapped(file: str, module: str, family: Family, base: str) -> Cells:
    """What Yosys makes of a mapped circuit that `flow hdl` wrote."""
    return synthesised([Step(f"read_verilog {quoted(file)}", "the mapped circuit")], module, family, family.commands[0], base)
