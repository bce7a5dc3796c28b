"""A test bench for a mapped circuit in Verilog, and the events that it plays.

The bench reads a file of events and drives the circuit through its ports alone, so it plays a synthesised netlist of it too. It prints the
lines of the run as the circuit has them. With the macro INSIDE it also looks at the registers and configuration bits inside, and shows them in
its lines; without it shows x for a bit that no port has.
"""

from __future__ import annotations

from string import Template
from typing import Iterable

from tlutflow.circuit import Circuit
from tlutflow.devices.cfglut import CfglutRandom
from tlutflow.runs.output import Output, Played
from tlutflow.runs.script import Event
from tlutflow.runs.waveform import pairs
from tlutflow.verilog.flip_flops import Chain, Random
from tlutflow.verilog.hdl import Device
from tlutflow.verilog.names import Names, Port, identifier
from tlutflow.verilog.tables import Operation

BENCH = Template(
    """// Plays the file of events that +events=FILE names, or ${module}.events, on $module, and prints the lines of the run. It uses the
// circuit's ports alone; with the macro INSIDE it shows what registers and configuration bits are inside.
/* verilator lint_off DECLFILENAME */
/* verilator lint_off LITENDIAN */
/* verilator lint_off UNUSEDSIGNAL */
module ${module}_bench;
    reg clock = 0, cfg_clk = 0;
    reg [0:$high_input] inputs = 0;
    wire [0:$high_output] outputs;
$signals
    $module circuit (
        $connections
    );
    reg [$high_bit:0] configuration;
`ifdef INSIDE
    wire [0:$high_state] states = {$states};
`else
    wire [0:$high_state] states = {$state_count{1'bx}};
`endif
    integer file, taken, count, address, value, digit;
    reg [8 * 8:1] word;
    reg [8 * 1024:1] path;

    // One period of the port's clock.
    task turn;
        begin
            #1 cfg_clk = 1;
            #1 cfg_clk = 0;
        end
    endtask

    // What the bits are now; looking at them at each step of a chain would take most of a simulation's time.
    task look;
`ifdef INSIDE
        configuration = {
            $image
        };
`else
        configuration = {$bit_count{1'bx}};
`endif
    endtask

$send
    // The inputs are read and applied, and the clock ticks.
    task cycle;
        begin
            taken = $$fscanf(file, " %b", inputs);
            #5 $$write("cycle $shown_outputs);
            clock = 1;
            #5 clock = 0;
            $$display(" $shown_states);
        end
    endtask

    // The bits are shown, the lowest address first.
    task image;
        begin
            look;
            $$write("image ");
            for (address = 0; address < $bits; address = address + 1)
                $$write("%b", configuration[address]);
            $$display("$no_bits");
        end
    endtask

    // As many writes as the line has are read, and are shown as the circuit has them.
    task writes;
        begin
            look;
            while (count > 0) begin
                taken = $$fscanf(file, " %d=%d", address, value);
                $$write(" %0d=%b", address, configuration[address]);
                count = count - 1;
            end
            $$display("");
        end
    endtask

    initial begin
        if ($$value$$plusargs("events=%s", path) == 0)
            path = "$module.events";
        file = $$fopen(path, "r");
        if (file == 0) begin
            $$display("there are no events: %0s can't be read", path);
            $$finish;
        end
        // What the circuit begins with is there before the first event.
        #1 $$display("$header");
        taken = $$fscanf(file, " %s", word);
        while (taken == 1) begin
            if (word == "cycle")
                cycle;
            else if (word == "image")
                image;
            else if (word == "$operation")
                send;
            else begin
                $$write("%0s", word);
                count = 1;
                if (word != "upset") begin
                    taken = $$fscanf(file, " %d", count);
                    $$write(" %0d", count);
                end
                if (word == "ask")
                    $$display("");
                else
                    writes;
            end
            taken = $$fscanf(file, " %s", word);
        end
        $$finish;
    end
endmodule
"""
)

WRITE_SIGNALS = Template(
    """    reg cfg_we = 0;
    reg [$high_data:0] cfg_$data = 0;
    reg [$high:0] cfg_addr = 0;
    wire cfg_busy;"""
)

# The bench waits for cfg_busy; a port without it is never busy.
WRITE = Template(
    """    // A write is read and sent to the port, which may take some periods.
    task send;
        begin
            taken = $$fscanf(file, " %d %b", address, value);
            cfg_addr = address[$high:0];
            cfg_$data = value[$high_data:0];
            cfg_we = 1;
            turn;
            cfg_we = 0;
            while (cfg_busy) turn;
        end
    endtask
"""
)

LOAD_SIGNALS = Template(
    """    reg [$high:0] cfg_we = 0, cfg_in = 0;
    wire [$high:0] cfg_out;
    reg cfg_commit = 0;"""
)

LOAD = Template(
    """    // The digits of each chain are read and sent to it, and then shown to the circuit.
    task send;
        begin
            for (count = 0; count < $regions; count = count + 1) begin
                digit = $$fgetc(file);
                while (digit == " ")
                    digit = $$fgetc(file);
                while (digit == "0" || digit == "1") begin
                    cfg_we = 1 << count;
                    cfg_in = digit == "1" ? ~0 : 0;
                    turn;
                    digit = $$fgetc(file);
                end
                cfg_we = 0;
            end
            cfg_commit = 1;
            turn;
            cfg_commit = 0;
        end
    endtask
"""
)


def row(title: str, port: Port, order: dict[str, int]) -> str:
    """The connection of a port to places of the bench's inputs or outputs."""
    bits = ", ".join(f"{title}[{order[net]}]" for net in reversed(port.bus.nets))
    return f".{identifier(port.name)}({{{bits}}})"


def places(nets: Iterable[str]) -> dict[str, int]:
    """The place of each net."""
    return {net: place for place, net in enumerate(nets)}


def config_words(device: Device) -> list[str]:
    """The short names of the configuration ports, in their order."""
    if isinstance(device, (Random, CfglutRandom)):
        return ["clk", "we", device.data, "addr", *(["busy"] if device.model else [])]
    return ["clk", "we", "in", *([] if device.model else ["commit"]), "out"]


def connections(circuit: Circuit, names: Names, device: Device) -> list[str]:
    """The connections of all ports."""
    made = [f".{names.clock}(clock)"] if names.clock else []
    made += [row("inputs", port, places(circuit.inputs)) for port in names.inputs]
    made += [row("outputs", port, places(circuit.roots)) for port in names.outputs]
    return made + [f".{names.config[word]}(cfg_{word})" for word in config_words(device)]


def port_texts(device: Device) -> dict[str, str]:
    """What the bench has for the circuit's port."""
    if isinstance(device, (Random, CfglutRandom)):
        words = {"high": device.width - 1, "high_data": device.word - 1, "data": device.data}
        signals = WRITE_SIGNALS.substitute(words)
        if not device.model:
            signals = signals.replace("wire cfg_busy;", "wire cfg_busy = 1'b0;")
        return {"signals": signals, "send": WRITE.substitute(words), "operation": "write"}
    regions = len(device.regions) if isinstance(device, Chain) else 1
    return {"signals": LOAD_SIGNALS.substitute(high=regions - 1), "send": LOAD.substitute(regions=regions), "operation": "load"}


def bench_text(circuit: Circuit, names: Names, device: Device) -> str:
    """The test bench of a circuit."""
    bits, states = len(circuit.pack.bits), len(circuit.latches)
    image = [device.seen(address) for address in reversed(range(bits))]
    state_names = ", ".join(f"circuit.{names.nets[latch.state]}" for latch in circuit.latches)
    return BENCH.substitute(
        port_texts(device),
        module=names.module,
        high_input=max(len(circuit.inputs), 1) - 1,
        high_output=max(len(circuit.roots), 1) - 1,
        high_state=max(states, 1) - 1,
        high_bit=max(bits, 1) - 1,
        connections=",\n        ".join(connections(circuit, names, device)),
        states=state_names or "1'b0",
        state_count=max(states, 1),
        image=",\n        ".join(image) or "1'b0",
        bit_count=max(bits, 1),
        bits=bits,
        no_bits="" if bits else "-",
        shown_outputs='%b", outputs' if circuit.roots else '-"',
        shown_states='%b", states' if states else '-"',
        header=f"luts {len(circuit.luts)} bits {bits} depth {circuit.depth}",
    )


def operations_of(device: Device, output: Output) -> list[list[Operation]]:
    """What is sent for each event of a run."""
    now = list(device.store.start)
    sent = []
    for played in output.events:
        before, now = now, with_writes(now, played.writes)
        sent.append(device.operations(before, now, played.writes, played.text))
    return sent


def with_writes(configuration: list[int], writes: list[tuple[int, int]]) -> list[int]:
    """A configuration after some writes; those of addresses that it doesn't have are left out."""
    if not writes:
        return configuration
    made = list(configuration)
    for address, bit in writes:
        if address < len(made):
            made[address] = bit
    return made


def line_of(event: Event, played: Played) -> str:
    """The line that the bench plays or shows, once what an event sends was sent."""
    if played.word == "cycle":
        return f"cycle {''.join(str(bit) for bit in event.values.values()) or '0'}"
    return "image" if played.word == "image" else played.text


def events_text(device: Device, events: list[Event], output: Output) -> str:
    """The file of events of a run."""
    lines = []
    for (event, played), sent in zip(pairs(events, output), operations_of(device, output)):
        lines += [*(it.line for it in sent), line_of(event, played)]
    return "\n".join([*lines, ""])
