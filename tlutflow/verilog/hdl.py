"""A mapped circuit as Verilog, whose configuration is changed through a port while it runs.

A target says how LUTs with changing bits are implemented, and a port how they are changed. LUTs of constants are plain functions.
"""

from __future__ import annotations

from dataclasses import dataclass
from typing import Union

from tlutflow.circuit import Circuit
from tlutflow.devices.cfglut import CfglutChain, CfglutRandom
from tlutflow.faults import Fault
from tlutflow.verilog.flip_flops import Chain, Random, Words
from tlutflow.verilog.names import Names
from tlutflow.verilog.store import store_of

TARGETS = ("generic", "xilinx")
PORTS = ("chain", "random")
# A test bench keeps a word in an integer.
MOST_WORD = 32
Device = Union[Chain, Random, CfglutChain, CfglutRandom]


@dataclass(frozen=True)
class Way:
    """How a configuration is kept and changed: the words that `flow hdl` and `flow stream` take."""

    target: str = "generic"
    port: str = "chain"
    bits: str = "changing"
    regions: int = 1
    word: int = 1
    pairs: bool = True

    @property
    def words(self) -> list[str]:
        """The arguments that choose it."""
        words = ["--target", self.target, "--port", self.port, "--bits", self.bits]
        words += ["--word", str(self.word)] if self.word > 1 else []
        return words + (["--regions", str(self.regions)] if self.regions > 1 else []) + ([] if self.pairs else ["--no-pairs"])


def device_of(circuit: Circuit, names: Names, way: Way) -> Device:
    """The LUTs and the configuration port of a circuit."""
    target, port, bits, regions, word = way.target, way.port, way.bits, way.regions, way.word
    if not 1 <= word <= MOST_WORD or word > 1 and port != "random":
        raise Fault(f"--word {word}: --port random has words of 1 to {MOST_WORD} bits, and --port chain has none")
    if regions < 1 or regions > 1 and (target, port) != ("generic", "chain"):
        raise Fault(f"--regions {regions}: the generic target has one chain or more, one for each region, and all other ports have one region")
    if target == "xilinx":
        store = store_of(circuit.pack, "changing" if bits == "distinct" else bits)
        return CfglutChain(circuit, names, store, way.pairs) if port == "chain" else CfglutRandom(circuit, names, store, way.pairs, word)
    store = store_of(circuit.pack, bits)
    if port == "chain":
        return Chain(circuit, names, store, regions)
    return Words(circuit, names, store, word) if word > 1 else Random(circuit, names, store)


def port_lines(names: Names, device: Device) -> list[str]:
    """The lines of the module's list of ports."""
    lines = [f"input {names.clock}"] if names.clock else []
    return lines + [port.declaration for port in (*names.inputs, *names.outputs)] + device.declarations()


def latch_lines(circuit: Circuit, names: Names) -> list[str]:
    """The registers."""
    if not circuit.latches:
        return []
    lines = [f"    always @(posedge {names.clock}) begin"]
    lines += [f"        {names.nets[latch.state]} <= {names.nets[latch.source]};" for latch in circuit.latches]
    return [*lines, "    end"]


def module_text(circuit: Circuit, names: Names, device: Device) -> str:
    """The circuit."""
    luts = [line for number, lut in enumerate(circuit.luts) for line in device.lut_lines(number, lut)]
    lines = [
        f"// The circuit {circuit.name} as tlut mapped it. It begins with the values that the parameters have at the start.",
        device.comment(),
        "/* verilator lint_off LITENDIAN */",
        "/* verilator lint_off UNUSEDSIGNAL */",
        *(["/* verilator lint_off PINCONNECTEMPTY */"] if device.model else []),
        f"module {names.module} (",
        ",\n".join(f"    {line}" for line in port_lines(names, device)),
        ");",
        *(f"    reg {names.nets[latch.state]} = 1'b{latch.start};" for latch in circuit.latches),
        *(f"    wire {names.nets[lut.net]};" for lut in circuit.luts),
        *device.lines(),
        *luts,
        *latch_lines(circuit, names),
        *(f"    assign {names.output_bits[output]} = {names.nets[root]};" for output, root in circuit.roots.items()),
        "endmodule",
    ]
    return "\n".join(lines) + "\n"
