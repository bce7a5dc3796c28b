"""The ports of a design, its parameters among them, and what keeps `tlut` from taking its netlist."""

from __future__ import annotations

from dataclasses import dataclass
from typing import Optional

from tlutflow.bus import Bus
from tlutflow.faults import Fault
from tlutflow.netlist import Library, gate_inputs
from tlutflow.text import count
from tlutflow.verilog.design_json import Cell, Design

# Cells whose gates grow with the product of their operands' widths, and what the names of those begin with that read a memory.
PRODUCTS = ("$mul", "$div", "$mod", "$divfloor", "$modfloor", "$pow")
MEMORY = "$memrd"
# Values that a memory has at the start are no logic.
INITIAL = "$meminit"
# The attribute of a port that makes it a parameter; its value is the port's at the start.
ATTRIBUTE = "tlut_param"


@dataclass(frozen=True)
class Port:
    """A port: its bus, the lowest digit of its values first, whether it is an input, and the value of its attribute or None."""

    bus: Bus
    is_input: bool
    attribute: Optional[str]


def ports_of(design: Design) -> list[Port]:
    """The ports of a design."""
    return [
        Port(design.nets[name].bus, port["direction"] == "input", design.attributes.get(name, {}).get(ATTRIBUTE)) for name, port in design.ports.items()
    ]


def gates_about(design: Design) -> int:
    """About how many gates a design has, from the operators of its source: one for each two bits that an operator reads."""
    return sum(gates_of(cell) for cell in design.cells if not cell.kind.startswith(INITIAL))


def gates_of(cell: Cell) -> int:
    """About how many gates an operator has. A memory has a multiplexer of all its words for each bit that is read."""
    if cell.kind in PRODUCTS:
        return len(cell.connections["A"]) * len(cell.connections["B"])
    if cell.kind.startswith(MEMORY):
        return len(cell.connections["DATA"]) << len(cell.connections["ADDR"]) >> 1
    return sum(1 for _ in cell.bits(False)) // 2


def attribute_value(port: Port) -> int:
    """The value that a port's attribute gives it: Yosys writes it as binary digits, of which as many count as the port has."""
    digits = port.attribute or "0"
    if set(digits) - set("01"):
        raise Fault(f"the attribute {ATTRIBUTE} of {port.bus.title} isn't a number")
    value, width = int(digits, 2), port.bus.width
    negative = len(digits) == 32 and digits[0] == "1"
    if not (value < 1 << width or negative and value >= (1 << 32) - (1 << width - 1)):
        raise Fault(f"the attribute {ATTRIBUTE} of {port.bus.title} is {value}, and the port has {count(width, 'bit')}")
    return value & (1 << width) - 1


def parameters_of(ports: list[Port], given: list[str], clocks: list[str]) -> dict[str, int]:
    """The bits of the parameters: of the ports with the attribute and of those in arguments PORT=VALUE, in the order of the ports."""
    values = {}
    for word in given:
        name, _, value = word.rpartition("=")
        if not name or name in values:
            raise Fault(f"--param {word}: " + (f"{name} has a value already" if name else "it isn't PORT=VALUE"))
        values[name] = value
    inputs = [port for port in ports if port.is_input and port.bus.name not in clocks]
    for name in values:
        if name not in [port.bus.name for port in inputs]:
            raise Fault(f"--param {name}: the input ports are {', '.join(port.bus.title for port in inputs) or 'none'}")
    bits: dict[str, int] = {}
    for port in inputs:
        if port.bus.name in values:
            bits.update(port.bus.digits(port.bus.value_of(values[port.bus.name])))
        elif port.attribute is not None:
            bits.update(port.bus.digits(attribute_value(port)))
    return bits


def obstacle(library: Library) -> Optional[str]:
    """Why `tlut` would refuse the netlist that the recipe made, or None."""
    main = library.main
    if main.subckts:
        kinds = sorted({it.model for it in main.subckts})
        return f"there is no logic for the cells {', '.join(kinds)}: rewrite latches, tristates, analogue and vendor cells"
    levels = [latch.state for latch in main.latches if latch.control is None]
    if levels:
        return f"{levels[0]} keeps a value without a clock, like a level-sensitive latch: write it as a register"
    clocks = library.clock_nets()
    made = [name for name in clocks if name not in main.inputs]
    if made:
        return f"the clock {made[0]} is no input: use the rising edge of one input, and turn gates and dividers into enables"
    if len(clocks) > 1:
        return f"there are {len(clocks)} clocks, {', '.join(clocks)}, but only one is supported: map each part alone"
    read = {*gate_inputs(library), *main.outputs}
    if clocks and clocks[0] in read:
        return f"the clock {clocks[0]} is also read as data, and a cycle has no value for it"
    return None
