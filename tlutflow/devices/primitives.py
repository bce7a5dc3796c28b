"""The primitives of Xilinx devices of series 7 that `flow hdl` instantiates."""

from __future__ import annotations

# The LUT6 that chooses among its first four inputs by its last two.
CHOICE = 0xFF00F0F0CCCCAAAA

# What stands for the primitives in a simulation of the circuit itself; a netlist comes with its cells.
MODELS = """
`ifdef INSIDE
// Stands for the CFGLUT5 of Xilinx devices in a simulation: five inputs, 32 bits, which CE shifts up by one place a clock.
module CFGLUT5 #(parameter [31:0] INIT = 0) (input CLK, CE, CDI, output CDO, input I0, I1, I2, I3, I4, output O5, O6);
    reg [31:0] data = INIT;
    always @(posedge CLK)
        if (CE)
            data <= {data[30:0], CDI};
    assign CDO = data[31];
    assign O6 = data[{I4, I3, I2, I1, I0}];
    assign O5 = data[{1'b0, I3, I2, I1, I0}];
endmodule

// Stands for the SRLC32E: a shift register of 32 places with one output at an address.
module SRLC32E #(parameter [31:0] INIT = 0) (input CLK, CE, D, input [4:0] A, output Q, Q31);
    reg [31:0] data = INIT;
    always @(posedge CLK)
        if (CE)
            data <= {data[30:0], D};
    assign Q = data[A];
    assign Q31 = data[31];
endmodule

// Stands for a LUT6.
module LUT6 #(parameter [63:0] INIT = 0) (input I0, I1, I2, I3, I4, I5, output O);
    assign O = INIT[{I5, I4, I3, I2, I1, I0}];
endmodule

// Stands for a LUT6 with two outputs: O5 is the function of the first five inputs in the lower 32 bits.
module LUT6_2 #(parameter [63:0] INIT = 0) (input I0, I1, I2, I3, I4, I5, output O5, O6);
    assign O6 = INIT[{I5, I4, I3, I2, I1, I0}];
    assign O5 = INIT[{1'b0, I4, I3, I2, I1, I0}];
endmodule

// Stand for the multiplexers behind LUTs.
module MUXF7 (input I0, I1, S, output O);
    assign O = S ? I1 : I0;
endmodule

module MUXF8 (input I0, I1, S, output O);
    assign O = S ? I1 : I0;
endmodule
`endif
"""


def pins(inputs: list[str], many: int) -> str:
    """The connections of the inputs of a LUT; further ones are 0."""
    return ", ".join(f".I{place}({it})" for place, it in enumerate([*inputs, *["1'b0"] * (many - len(inputs))]))


def lut6(name: str, init: int, inputs: list[str], net: str) -> str:
    """The line of a LUT6 that drives a net."""
    return f"    LUT6 #(.INIT(64'h{init:016x})) {name} ({pins(inputs, 6)}, .O({net}));"


def lut6_2(name: str, init: int, inputs: list[str], lower: str, upper: str) -> str:
    """The line of a LUT6_2 that drives two nets by functions of up to five inputs: the lower half of its bits, and the upper one."""
    ports = f"{pins(inputs, 5)}, .I5(1'b1), .O5({lower}), .O6({upper})"
    return f"    LUT6_2 #(.INIT(64'h{init:016x})) {name} ({ports});"
