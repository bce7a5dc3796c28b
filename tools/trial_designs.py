"""Designs in Verilog with ports that are parameters, on which preparations are tried. Each is written for this purpose."""

# By their names: the text, in which the parameters have the attribute `tlut_param`.
DESIGNS = {
    "a chain of multiplexers, 64 inputs": """
module top (input [63:0] x, (* tlut_param = 5 *) input [63:0] sel, output reg y);
    integer i;
    always @* begin
        y = 0;
        for (i = 0; i < 64; i = i + 1)
            if (sel[i]) y = x[i];
    end
endmodule
""",
    "a content-addressed memory, 32 words of 8 bits": """
module top (input [7:0] key, (* tlut_param = 1 *) input [255:0] words, output reg [4:0] place, output reg hit);
    integer i;
    always @* begin
        place = 0;
        hit = 0;
        for (i = 0; i < 32; i = i + 1)
            if (words[8 * i +: 8] == key && !hit) begin
                place = i;
                hit = 1;
            end
    end
endmodule
""",
    "a square root of 16 bits": """
module top (input [15:0] x, output reg [7:0] root);
    integer i;
    reg [17:0] rest, test;
    always @* begin
        rest = 0;
        root = 0;
        for (i = 7; i >= 0; i = i - 1) begin
            rest = {rest[15:0], x[2 * i +: 2]};
            test = {8'b0, root, 2'b01};
            root = {root[6:0], 1'b0};
            if (rest >= test) begin
                rest = rest - test;
                root[0] = 1;
            end
        end
    end
endmodule
""",
    "a multiplier of 10 by 10, one factor a parameter": """
module top (input [9:0] x, (* tlut_param = 77 *) input [9:0] c, output [19:0] y);
    assign y = x * c;
endmodule
""",
    "a neuron of 6 inputs": """
module top (input clk, input [23:0] x, (* tlut_param = 9 *) input [23:0] w, (* tlut_param = 40 *) input [9:0] limit, output reg fires = 0);
    wire [9:0] sum = x[3:0] * w[3:0] + x[7:4] * w[7:4] + x[11:8] * w[11:8] + x[15:12] * w[15:12] + x[19:16] * w[19:16] + x[23:20] * w[23:20];
    always @(posedge clk) fires <= sum >= limit;
endmodule
""",
    "an arithmetic unit of 16 bits, its operation a parameter": """
module top (input [15:0] a, b, (* tlut_param = 2 *) input [2:0] op, output reg [15:0] y, output zero);
    always @*
        case (op)
            0: y = a + b;
            1: y = a - b;
            2: y = a & b;
            3: y = a | b;
            4: y = a ^ b;
            5: y = a << b[3:0];
            6: y = a >> b[3:0];
            7: y = {15'b0, $signed(a) < $signed(b)};
        endcase
    assign zero = y == 0;
endmodule
""",
    "a recursive filter": """
module top (input clk, input [7:0] x, (* tlut_param = 3 *) input [7:0] b, (* tlut_param = 200 *) input [7:0] a, output reg [15:0] y = 0);
    always @(posedge clk) y <= b * x + ((a * y[15:4]) >> 6);
endmodule
""",
    "a controller with limits": """
module top (input clk, input [9:0] sensor, (* tlut_param = 400 *) input [9:0] goal, (* tlut_param = 5 *) input [3:0] gain,
            (* tlut_param = 700 *) input [9:0] most, output reg [9:0] drive = 0);
    reg [13:0] total = 0;
    wire [13:0] error = {4'b0, goal} - {4'b0, sensor};
    wire [13:0] next = total + error * gain;
    always @(posedge clk) begin
        total <= next;
        drive <= next[13] ? 0 : next[13:3] > most ? most : next[12:3];
    end
endmodule
""",
    "a CRC of 32 bits, its polynomial a parameter": """
module top (input clk, input [7:0] d, (* tlut_param = 79764919 *) input [31:0] g, output reg [31:0] r = 0);
    integer i;
    reg [31:0] s;
    always @* begin
        s = r;
        for (i = 7; i >= 0; i = i - 1)
            s = {s[30:0], 1'b0} ^ ((s[31] ^ d[i]) ? g : 32'b0);
    end
    always @(posedge clk) r <= s;
endmodule
""",
    "a ternary matcher, 8 rules of 16 bits": """
module top (input [15:0] x, (* tlut_param = 7 *) input [127:0] value, (* tlut_param = 9 *) input [127:0] care, output reg [2:0] rule, output reg hit);
    integer i;
    always @* begin
        rule = 0;
        hit = 0;
        for (i = 7; i >= 0; i = i - 1)
            if (((x ^ value[16 * i +: 16]) & care[16 * i +: 16]) == 0) begin
                rule = i;
                hit = 1;
            end
    end
endmodule
""",
    "a serial port, its divider a parameter": """
module top (input clk, input rx, (* tlut_param = 433 *) input [11:0] divider, output reg [7:0] byte = 0, output reg done = 0);
    reg [11:0] count = 0;
    reg [3:0] place = 0;
    reg busy = 0;
    always @(posedge clk) begin
        done <= 0;
        if (!busy && !rx) begin
            busy <= 1;
            count <= divider >> 1;
            place <= 0;
        end else if (busy && count == 0) begin
            count <= divider;
            place <= place + 1;
            if (place > 0 && place < 9) byte <= {rx, byte[7:1]};
            if (place == 9) begin
                busy <= 0;
                done <= rx;
            end
        end else if (busy)
            count <= count - 1;
    end
endmodule
""",
}
