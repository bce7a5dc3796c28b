"""Drawn designs with sums in which parameters are factors: mixed widths and signs, parameters reached through logic or chosen by data, shifts,
comparisons, limits, and sums in registers."""

from __future__ import annotations

import random


class SumDesign:
    """A design that a seed draws: its module `sums` in Verilog."""

    def __init__(self, seed: int):
        self.draw = random.Random(seed)
        self.heads = ["input clk", "input sel", "input [1:0] way"]
        self.data = [self.port("x", number) for number in range(4)]
        self.parameters = [self.port("p", number) for number in range(4)]
        self.lines = [self.register(number) for number in range(3)]
        self.lines.append(self.limited())
        self.heads.append("output [3:0] c")
        self.lines.append(f"assign c = {{x0 < p0, p1 <= x1, x2 == p2, {self.word()} > p3}};")

    @property
    def text(self) -> str:
        """The module."""
        return "\n".join([f"module sums ({', '.join(self.heads)});", *self.lines, "endmodule", ""])

    def port(self, kind: str, number: int) -> str:
        """A port of some width and sign; the third parameter has a value at the start."""
        width, sign = self.draw.randint(2, 9), self.draw.choice(["", "signed "])
        mark = f"(* tlut_param = {number % 3} *) " if kind == "p" else ""
        self.heads.append(f"{mark}input {sign}[{width - 1}:0] {kind}{number}")
        return f"{kind}{number}"

    def parameter(self) -> str:
        """A parameter."""
        return self.draw.choice(self.parameters)

    def word(self) -> str:
        """Something that is a factor or an addend."""
        data, p, q = self.draw.choice(self.data), self.parameter(), self.parameter()
        forms = [
            *[data] * 5,
            *[p] * 5,
            f"$signed({{1'b0, {data}}})",
            f"(sel ? {p} : {q})",
            f"(way[0] ? {p} : way[1] ? {q} : {self.parameter()})",
            f"({p} + {q})",
            f"(p0[0] ? {p} : {q})",
            f"(x0[0] ? {data} : {p})",
        ]
        return self.draw.choice(forms)

    def term(self) -> str:
        """A term of a sum, with its sign."""
        left, right = self.word(), self.word()
        forms = [
            *[f"{left} * {right}"] * 5,
            left,
            f"{left} * {self.draw.randint(-40, 90)}",
            f"({left} << 3)",
            str(self.draw.randint(0, 300)),
            # Icarus Verilog takes p1[1:0] for signed where that is the whole of a signed p1.
            f"({left} << {{1'b0, p1[1:0]}})",
            f"({left} >> p0[0])",
            f"(({left} < {right}) ? {left} : {right})",
        ]
        return f"{self.draw.choice('+-')} {self.draw.choice(forms)}"

    def register(self, number: int) -> str:
        """A register that has a sum, with itself or the register before it as an addend now and then."""
        width, many = self.draw.randint(5, 22), self.draw.randint(1, 6)
        self.heads.append(f"output reg {self.draw.choice(['', 'signed '])}[{width - 1}:0] y{number}")
        before = self.draw.choice(["", "", f"y{number} + ", f"y{max(0, number - 1)} + "])
        total = before + " ".join(self.term() for _ in range(many)).lstrip("+ ")
        condition = self.draw.choice(["", "", "if (sel) ", "if (!way[1]) "])
        return f"initial y{number} = 0;\nalways @(posedge clk) {condition}y{number} <= {total};"

    def limited(self) -> str:
        """A sum that is limited by a parameter."""
        self.heads.append("output [11:0] s")
        return f"wire [11:0] all = x1 * {self.parameter()} + {self.parameter()};\nassign s = all > {self.parameter()} ? p3 : all - p2;"
