"""Names of a netlist as Verilog: identifiers, ports that are vectors, and the expression of each net."""

from __future__ import annotations

import re
from dataclasses import dataclass
from typing import Iterable, Optional

from tlutflow.bus import Bus
from tlutflow.circuit import Circuit
from tlutflow.faults import Fault
from tlutflow.text import ENCODING


class UnwritableName(Fault):
    """Verilog can't hold a name as it is."""


SIMPLE = re.compile(r"[A-Za-z_][A-Za-z0-9_]*")
KEYWORDS = set(
    """always and assign automatic begin buf bufif0 bufif1 case casex casez cell cmos config deassign default defparam design disable
    edge else end endcase endconfig endfunction endgenerate endmodule endprimitive endspecify endtable endtask event for force forever
    fork function generate genvar highz0 highz1 if ifnone incdir include initial inout input instance integer join large liblist library
    localparam macromodule medium module nand negedge nmos nor noshowcancelled not notif0 notif1 or output parameter pmos posedge
    primitive pull0 pull1 pulldown pullup pulsestyle_ondetect pulsestyle_onevent rcmos real realtime reg release repeat rnmos rpmos rtran
    rtranif0 rtranif1 scalared showcancelled signed small specify specparam strong0 strong1 supply0 supply1 table task time tran tranif0
    tranif1 tri tri0 tri1 triand trior trireg unsigned use vectored wait wand weak0 weak1 while wire wor xnor xor
    bit byte do enum final global import int interface logic new package priority program property ref return static string struct super
    this type typedef union unique var virtual void""".split()
)

# The configuration's ports, and the registers and wires behind them.
CONFIG = (
    *("clk", "we", "in", "out", "commit", "addr", "bit", "data", "busy", "chain", "bits", "row", "column"),
    *("kept_addr", "kept_bit", "turning", "hit", "last", "entry", "end", "ends", "token", "between"),
)
# Those that other names begin with.
BEGINNINGS = ("row", "end", "token", "between")


# What no escaped identifier can hold: Verilog has printable characters only, and its readers take some of them for a directive, a string,
# a comment or an attribute. A `%` before two digits is what stands for such a character.
CODED = re.compile(r"""[^!-~]|[`"]|(?<=[/*])[/*]|^\*|(?<=\()\*|\*(?=\))|%(?=[0-9A-F]{2})""")


def identifier(name: str) -> str:
    """A name as an identifier, escaped if necessary. What Verilog can't hold is `%` and the hexadecimal digits of its bytes. So no two names
    have the same identifier."""
    if SIMPLE.fullmatch(name) and name not in KEYWORDS:
        return name
    return f"\\{CODED.sub(coded, name)} "


def coded(found: re.Match[str]) -> str:
    """The bytes of some characters in hexadecimal digits."""
    return "".join(f"%{byte:02X}" for byte in found[0].encode(**ENCODING))


def exact_identifier(name: str) -> str:
    """A name as an identifier for Yosys that is that very name."""
    made = identifier(name)
    if made not in (name, f"\\{name} "):
        raise UnwritableName(f"the name {name!r} can't be written in Verilog, which allows printable characters only")
    return made


def module_name(given: Optional[str], circuit: str) -> str:
    """The name of the module: the one that was given, which has to be a plain one since a file has it too, or one that the circuit's name makes."""
    if given is not None:
        if not SIMPLE.fullmatch(given) or given in KEYWORDS:
            raise Fault(f"--module {given}: a module name has letters, digits and _, doesn't begin with a digit, and isn't a keyword of Verilog")
        return given
    made = re.sub("[^A-Za-z0-9_]", "_", circuit) + "_mapped"
    return f"_{made}" if made[0].isdigit() else made


def free_name(name: str, taken: Iterable[str]) -> str:
    """A name that isn't taken: this one, or with underscores appended."""
    while name in set(taken):
        name += "_"
    return name


def free_beginning(beginning: str, taken: Iterable[str]) -> str:
    """A prefix of no taken name: this one, or with underscores appended."""
    while any(name.startswith(beginning) for name in taken):
        beginning += "_"
    return beginning


@dataclass(frozen=True)
class Port:
    """A port of the circuit: its direction, its identifier, and its bus."""

    direction: str
    name: str
    bus: Bus

    @property
    def declaration(self) -> str:
        """The line of the list of ports."""
        sign = "signed " if self.bus.is_signed else ""
        return f"{self.direction} {sign}{self.bus.span}{' ' * bool(self.bus.span)}{identifier(self.name)}"

    def bits(self) -> dict[str, str]:
        """The expression of each net."""
        name, bus = identifier(self.name), self.bus
        return {net: name if bus.low is None else f"{name}[{bus.index(place)}]" for place, net in enumerate(bus.nets)}


@dataclass(frozen=True)
class Names:
    """The names of a circuit in Verilog: its module, its ports, the expressions of its nets and of its outputs, its clock, which is empty
    where there is no latch, those of the configuration's ports and registers by their short words, and what the names of its tables'
    instances begin with."""

    module: str
    inputs: list[Port]
    outputs: list[Port]
    nets: dict[str, str]
    output_bits: dict[str, str]
    clock: str
    config: dict[str, str]
    table: str

    def instance(self, number: int) -> str:
        """The name of a LUT's instance."""
        return f"{self.table}{number}"


def names_of(circuit: Circuit, module: str) -> Names:
    """The names of a circuit, of which no two are the same. An output that has the name of an input gets another one."""
    inputs = [Port("input", name, bus) for name, bus in circuit.buses(circuit.inputs).items()]
    taken = {port.name for port in inputs}
    clock = ""
    if circuit.latches:
        clock = circuit.clock or free_name("clock", taken)
        taken.add(clock)
    outputs = []
    for name, bus in circuit.buses(circuit.roots).items():
        own = free_name(name if name not in taken else f"{name}_out", taken)
        taken.add(own)
        outputs.append(Port("output", own, bus))
    taken.update(circuit.lut_of)
    nets = {net: identifier(net) for net in circuit.lut_of}
    for latch in circuit.latches:
        own = free_name(latch.state if latch.state not in taken else f"{latch.state}_reg", taken)
        taken.add(own)
        nets[latch.state] = identifier(own)
    config = {word: free_name(f"cfg_{word}", taken) for word in CONFIG}
    config.update((word, free_beginning(f"cfg_{word}", taken)) for word in BEGINNINGS)
    table = free_beginning("table_", taken)
    for port in inputs:
        nets.update(port.bits())
    output_bits = {net: bit for port in outputs for net, bit in port.bits().items()}
    return Names(module, inputs, outputs, nets, output_bits, identifier(clock) if clock else "", config, table)
