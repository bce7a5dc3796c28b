"""The Xilinx target: LUTs whose bits change are CFGLUT5, which keep them in the device's own LUTs; all others are plain functions, or pairs
of them in a LUT6_2.

The bits of a site that changes are a ring: the end of its shift register goes back into its beginning. With the port `random` a write turns
the rings of one group once around, and puts the new bits in where the old ones come by. One token that runs through SRLC32E says where that
is, for all rings. With the port `chain` all rings are one shift register, and the circuit is of no use while it shifts.
"""

from __future__ import annotations

from functools import cached_property
from itertools import accumulate, chain
from typing import Iterable

from tlutflow.circuit import Circuit, Lut
from tlutflow.devices.primitives import CHOICE, MODELS, lut6, lut6_2, pins
from tlutflow.devices.rings import HALF, Layout, Unit, half_addresses, places_over, together
from tlutflow.text import count
from tlutflow.verilog.names import Names
from tlutflow.verilog.store import Store, check_writes
from tlutflow.verilog.tables import Operation, chosen, vector

ZERO = "1'b0"


class Cfglut:
    """Rings of CFGLUT5; what the two ports have in common."""

    model = MODELS

    def __init__(self, circuit: Circuit, names: Names, store: Store, paired: bool = True):
        self.circuit, self.names, self.store = circuit, names, store
        self.layout = Layout(circuit, store, paired)
        self.rings = self.layout.rings
        self.turn = HALF * max(map(len, self.rings), default=1)

    def seen(self, address: int) -> str:
        """What a bit is, as a test bench sees it from above."""
        places = self.layout.places.get(address)
        if not places:
            return f"1'b{self.store.start[address]}"
        ring, place = places[0]
        return f"circuit.{self.instance(self.rings[ring][place // HALF])}.data[{place % HALF}]"

    def instance(self, unit: Unit) -> str:
        """The name of a CFGLUT5."""
        return f"{self.names.instance(unit.luts[0])}_{unit.half}"

    def bits(self, unit: Unit, configuration: list[int]) -> list[int]:
        """The bits of a CFGLUT5, the lowest place first."""
        return [0 if address is None else configuration[address] for address in unit.places]

    def expressions(self, leaves: Iterable[str]) -> list[str]:
        """The expressions of some nets."""
        return [self.names.nets[leaf] for leaf in leaves]

    def unit_line(self, ring: int, place: int, outputs: str) -> str:
        """The line of a CFGLUT5, which has a place in a ring."""
        unit = self.rings[ring][place]
        init = sum(bit << at for at, bit in enumerate(self.bits(unit, self.store.start)))
        inputs = self.expressions(unit.leaves)
        inputs = [*inputs, *["1'b0"] * (4 - len(inputs)), "1'b1"] if unit.is_pair else inputs
        enable, entry, end = self.shifted(ring, place)
        ports = f".CLK({self.names.config['clk']}), .CE({enable}), .CDI({entry}), .CDO({end}), {pins(inputs, 5)}, {outputs}"
        return f"    CFGLUT5 #(.INIT(32'h{init:08x})) {self.instance(unit)} ({ports});"

    def lut_lines(self, number: int, lut: Lut) -> list[str]:
        """The lines of the site of a LUT; those of a pair are the lines of its first one."""
        net, other = self.names.nets[lut.net], self.layout.partner.get(number)
        if other is not None and other < number:
            return []
        ring = self.layout.ring_of.get(number)
        if ring is None:
            return self.fixed_lines(number, lut) if other is None else [self.fixed_pair(number, other)]
        if other is not None:
            return [self.unit_line(ring, 0, f".O6({self.names.nets[self.circuit.luts[other].net]}), .O5({net})")]
        return [self.unit_line(ring, 0, f".O6({net}), .O5()")] if len(lut.leaves) < 6 else self.wide_lines(number, lut, ring)

    def fixed_lines(self, number: int, lut: Lut) -> list[str]:
        """The lines of a LUT of constants."""
        bits = [f"1'b{self.store.start[address]}" for address in lut.addresses]
        return chosen(self.names, self.names.instance(number), lut.leaves, bits, self.names.nets[lut.net])

    def fixed_pair(self, one: int, other: int) -> str:
        """The line of two LUTs of constants in a site."""
        luts = [self.circuit.luts[it] for it in (one, other)]
        leaves = together(*luts)
        places = chain.from_iterable(places_over(lut, leaves, 5) for lut in luts)
        init = sum(self.store.start[address] << at for at, address in enumerate(places) if address is not None)
        lower, upper = self.expressions(lut.net for lut in luts)
        return lut6_2(f"{self.names.instance(one)}_pair", init, self.expressions(leaves), lower, upper)

    def wide_lines(self, number: int, lut: Lut, ring: int) -> list[str]:
        """The lines of a LUT of six leaves: two halves, each a CFGLUT5 or of constants, and the choice between them."""
        top = self.names.instance(number)
        nets = [f"{top}_low", f"{top}_high"]
        lines = [f"    wire {', '.join(nets)};"]
        place_of = {unit.half: place for place, unit in enumerate(self.rings[ring])}
        for half, net in enumerate(nets):
            if half in place_of:
                lines.append(self.unit_line(ring, place_of[half], f".O6({net}), .O5()"))
                continue
            bits = [f"1'b{self.store.start[address]}" for address in half_addresses(lut, half)]
            lines += chosen(self.names, f"{top}_{half}", lut.leaves[:5], bits, net)
        leaf, out = self.expressions([lut.leaves[5], lut.net])
        return [*lines, f"    MUXF7 {top}_choice (.I0({nets[0]}), .I1({nets[1]}), .S({leaf}), .O({out}));"]

    def slices(self) -> int:
        """How many slices hold the CFGLUT5."""
        raise NotImplementedError

    def slices_text(self) -> str:
        """The slices, in a line of a comment."""
        return f"// {len(self.layout.units)} CFGLUT5 in {count(self.slices(), 'slice')} of the kind SLICEM, whose four share a clock and an enable."

    def shifted(self, ring: int, place: int) -> tuple[str, str, str]:
        """The enable of a CFGLUT5, what goes into its shift register, and what leaves it."""
        raise NotImplementedError


class CfglutRandom(Cfglut):
    """A write turns the rings of one group, which has as many rings as a write has bits. They share an enable."""

    def __init__(self, circuit: Circuit, names: Names, store: Store, paired: bool = True, word: int = 1):
        super().__init__(circuit, names, store, paired)
        # How many bits a write has, and the short word of the port that has them.
        self.word, self.data = word, "data" if word > 1 else "bit"
        self.groups = -(-len(self.rings) // word)
        self.group_width = max(0, (self.groups - 1).bit_length())
        self.place_width = (self.turn - 1).bit_length()

    @property
    def width(self) -> int:
        """How many digits an address has."""
        return self.group_width + self.place_width

    def group(self, number: int) -> list[int]:
        """The rings of a group."""
        return list(range(number * self.word, min(len(self.rings), (number + 1) * self.word)))

    def at(self, lane: int) -> str:
        """The index of a lane, which is one bit of a write, in a vector that has one for each."""
        return f"[{lane}]" if self.word > 1 else ""

    def declarations(self) -> list[str]:
        """The lines of the port."""
        config = self.names.config
        data = f"input {vector(self.word)}{config[self.data]}"
        return [*(f"input {config[it]}" for it in ("clk", "we")), data, f"input {vector(self.width, True)}{config['addr']}", f"output {config['busy']}"]

    def comment(self) -> str:
        """What the port does, in lines of a comment."""
        config, what = self.names.config, "the ring" if self.word == 1 else f"the group of {self.word} rings"
        return f"""// At a rising edge of {config['clk']} with {config['we']} a write of {config[self.data]} begins, which takes {self.turn} periods.
// {config['busy']} is 1 meanwhile, {config['we']} has to be 0 then, and what is written is of no use. {config['addr']} is the
// number of {what}, and below it, in {self.place_width} digits, the place of the bit: `flow stream` prints them.
{self.slices_text()}"""

    def slices(self) -> int:
        """How many slices hold the CFGLUT5."""
        return self.layout.slices([self.word] * self.groups)

    def lines(self) -> list[str]:
        """A write that is kept, the token, the enables of the rings, and what goes into them."""
        config, rings = self.names.config, len(self.rings)
        if not rings:
            return [f"    assign {config['busy']} = 1'b0;"]
        lanes = vector(self.word)
        return [
            f"    reg {vector(self.width, True)}{config['kept_addr']} = 0;",
            f"    reg {lanes}{config['kept_bit']} = 0;",
            f"    reg {config['turning']} = 0;",
            f"    wire {config['hit']}, {config['last']};",
            f"    wire {lanes}{config['entry']}, {config['end']};",
            f"    wire {vector(rings, True)}{config['ends']};",
            f"    wire {vector(self.groups, True)}{config['row']};",
            f"    assign {config['busy']} = {config['turning']};",
            f"    always @(posedge {config['clk']}) begin",
            f"        if ({config['we']}) begin",
            f"            {config['kept_addr']} <= {config['addr']};",
            f"            {config['kept_bit']} <= {config[self.data]};",
            "        end",
            f"        if ({config['last']})",
            f"            {config['turning']} <= 0;",
            f"        else if ({config['we']})",
            f"            {config['turning']} <= 1;",
            "    end",
            *self.token_lines(),
            *self.enable_lines(),
            *(line for lane in range(self.word) for line in self.end_lines(lane)),
            f"    assign {config['entry']} = {config['hit']} ? {config['kept_bit']} : {config['end']};",
        ]

    def token_lines(self) -> list[str]:
        """The token, which is at a place of its shift register at each step of a turn."""
        config, token = self.names.config, self.names.config["token"]
        shift = f".CLK({config['clk']}), .CE(1'b1), .A({config['kept_addr']}[4:0])"
        if self.turn == HALF:
            return [f"    SRLC32E #(.INIT(32'b0)) {token}_0 ({shift}, .D({config['we']}), .Q({config['hit']}), .Q31({config['last']}));"]
        return [
            f"    wire {token}_between, {token}_early, {token}_late;",
            f"    SRLC32E #(.INIT(32'b0)) {token}_0 ({shift}, .D({config['we']}), .Q({token}_early), .Q31({token}_between));",
            f"    SRLC32E #(.INIT(32'b0)) {token}_1 ({shift}, .D({token}_between), .Q({token}_late), .Q31({config['last']}));",
            f"    assign {config['hit']} = {config['kept_addr']}[5] ? {token}_late : {token}_early;",
        ]

    def group_digits(self, first: int, count: int) -> list[str]:
        """Some digits of the number of the group that turns, 0 behind the last one."""
        kept = self.names.config["kept_addr"]
        return [f"{kept}[{self.place_width + place}]" if place < self.group_width else "1'b0" for place in range(first, first + count)]

    def enable_lines(self) -> list[str]:
        """The enable of each group, in one LUT6: its number within 32 groups, and that these turn."""
        config = self.names.config
        rows = -(-self.groups // 32)
        lines = [f"    wire {vector(rows, True)}{config['column']};"]
        high = f"{config['kept_addr']}[{self.width - 1}:{self.place_width + 5}]"
        for row in range(rows):
            is_it = f" && {high} == {self.group_width - 5}'d{row}" if rows > 1 else ""
            lines.append(f"    assign {config['column']}[{row}] = {config['turning']}{is_it};")
        for group in range(self.groups):
            inputs = [*self.group_digits(0, 5), f"{config['column']}[{group // 32}]"]
            lines.append(lut6(f"{config['row']}_{group}", 1 << 32 + group % 32, inputs, f"{config['row']}[{group}]"))
        return lines

    def end_lines(self, lane: int) -> list[str]:
        """What leaves a ring of the group that turns: a choice among sixteen takes four LUT6, and the multiplexers behind them."""
        config, out = self.names.config, f"{self.names.config['end']}{self.at(lane)}"
        ends = [f"{config['ends']}[{ring}]" for ring in range(lane, len(self.rings), self.word)]
        top = f"{config['end']}_{lane}"
        blocks = [f"{top}_{number}" for number in range(-(-len(ends) // 16))]
        lines = [f"    wire {name};" for name in blocks]
        for number, name in enumerate(blocks):
            lines += self.choice_lines(name, ends[16 * number : 16 * number + 16])
        if len(blocks) < 2:
            return [*lines, f"    assign {out} = {(blocks or [ZERO])[0]};"]
        index = f"{config['kept_addr']}[{self.width - 1}:{self.place_width + 4}]"
        every = f"    wire {vector(len(blocks))}{top}_all = {{{', '.join(reversed(blocks))}}};"
        return [*lines, every, f"    assign {out} = {top}_all[{index}];"]

    def choice_lines(self, name: str, ends: list[str]) -> list[str]:
        """The lines by which a net is one of up to sixteen others."""
        digits = self.group_digits(0, 4)
        fours = [ends[place : place + 4] for place in range(0, len(ends), 4)]
        if len(ends) == 1:
            return [f"    assign {name} = {ends[0]};"]
        nets = [name if len(fours) == 1 else f"{name}_four{place}" for place in range(len(fours))]
        lines = [] if len(fours) == 1 else [f"    wire {', '.join(nets)};"]
        for net, four in zip(nets, fours):
            lines.append(lut6(f"{net}_lut", CHOICE, [*four, *["1'b0"] * (4 - len(four)), *digits[:2]], net))
        if len(fours) == 1:
            return lines
        pairs = [nets[place : place + 2] for place in range(0, len(nets), 2)]
        halves = [pair[0] if len(pair) == 1 else f"{name}_eight{place}" if len(pairs) > 1 else name for place, pair in enumerate(pairs)]
        for half, pair in zip(halves, pairs):
            if len(pair) == 2:
                lines += [] if half == name else [f"    wire {half};"]
                lines.append(f"    MUXF7 {half}_mux (.I0({pair[0]}), .I1({pair[1]}), .S({digits[2]}), .O({half}));")
        if len(halves) == 2:
            second = halves[1]
            if len(pairs[1]) == 1:
                second = f"{name}_eight1"
                lines += [f"    wire {second};", f"    MUXF7 {second}_mux (.I0({pairs[1][0]}), .I1(1'b0), .S({digits[2]}), .O({second}));"]
            lines.append(f"    MUXF8 {name}_mux (.I0({halves[0]}), .I1({second}), .S({digits[3]}), .O({name}));")
        return lines

    def shifted(self, ring: int, place: int) -> tuple[str, str, str]:
        config, lane, last = self.names.config, ring % self.word, len(self.rings[ring]) - 1
        between = f"{config['between']}_{ring}"
        entry = between if place else f"{config['entry']}{self.at(lane)}"
        return f"{config['row']}[{ring // self.word}]", entry, f"{config['ends']}[{ring}]" if place == last else between

    def lut_lines(self, number: int, lut: Lut) -> list[str]:
        ring = self.layout.ring_of.get(number)
        is_long = ring is not None and len(self.rings[ring]) == 2
        between = [f"    wire {self.names.config['between']}_{ring};"] if is_long else []
        return between + super().lut_lines(number, lut)

    def write(self, group: int, place: int, configuration: list[int]) -> Operation:
        """The write of a place of a group, whose digits begin with the highest ring. It ends where the place was that a step of a turn
        brings by; a ring of 32 bits has turned once before, if others have 64, and has the place below."""
        digits = []
        for ring in reversed(self.group(group)):
            bits = [bit for unit in self.rings[ring] for bit in self.bits(unit, configuration)]
            digits.append(str(bits[place % len(bits)]))
        return Operation("write", [str((group << self.place_width) + self.turn - 1 - place), "".join(digits)])

    def places_of(self, addresses: Iterable[int]) -> list[tuple[int, int]]:
        """The groups and places that hold some bits, each once."""
        return list(dict.fromkeys((ring // self.word, place) for address in addresses for ring, place in self.layout.places[address]))

    def operations(self, before: list[int], after: list[int], writes: list[tuple[int, int]], text: str) -> list[Operation]:
        """What is sent for some writes."""
        check_writes(self.store, writes, before, text.startswith("upset"), text)
        return [self.write(*it, after) for it in self.places_of(address for address, _ in writes if address in self.store.places)]

    def whole(self, configuration: list[int]) -> list[Operation]:
        """What is sent for a whole configuration."""
        return [self.write(*it, configuration) for it in self.places_of(self.store.cells)]


class CfglutChain(Cfglut):
    """All CFGLUT5 are one shift register."""

    @property
    def length(self) -> int:
        """How many bits are shifted in for a change."""
        return HALF * len(self.layout.units)

    def slices(self) -> int:
        """How many slices hold the CFGLUT5."""
        return self.layout.slices([len(self.rings)])

    def declarations(self) -> list[str]:
        """The lines of the port."""
        config = self.names.config
        return [*(f"input {config[it]}" for it in ("clk", "we", "in")), f"output {config['out']}"]

    def comment(self) -> str:
        """What the port does, in lines of a comment."""
        config = self.names.config
        return f"""// At a rising edge of {config['clk']} with {config['we']} the chain of all CFGLUT5 takes {config['in']}, and its first bit leaves it
// as {config['out']}. It has {self.length} bits; while it shifts the circuit is of no use. `flow stream` prints what to send.
{self.slices_text()}"""

    def lines(self) -> list[str]:
        """The links of the chain."""
        config, many = self.names.config, len(self.layout.units)
        if not many:
            return [f"    assign {config['out']} = {config['in']};"]
        return [
            f"    wire {vector(many + 1)}{config['ends']};",
            f"    assign {config['ends']}[0] = {config['in']};",
            f"    assign {config['out']} = {config['ends']}[{many}];",
        ]

    @cached_property
    def first_units(self) -> list[int]:
        """The place in the chain of the first CFGLUT5 of each ring."""
        return [0, *accumulate(map(len, self.rings))]

    def shifted(self, ring: int, place: int) -> tuple[str, str, str]:
        config, unit = self.names.config, self.first_units[ring] + place
        return config["we"], f"{config['ends']}[{unit}]", f"{config['ends']}[{unit + 1}]"

    def operations(self, before: list[int], after: list[int], writes: list[tuple[int, int]], text: str) -> list[Operation]:
        """What is sent for some writes: all bits."""
        check_writes(self.store, writes, before, text.startswith("upset"), text)
        return self.whole(after) if any(address in self.store.places for address, _ in writes) else []

    def whole(self, configuration: list[int]) -> list[Operation]:
        """What is sent for a whole configuration: the last unit first, and in each the highest place first."""
        digits = [bit for unit in reversed(self.layout.units) for bit in reversed(self.bits(unit, configuration))]
        return [Operation("load", ["".join(map(str, digits)) or "-"])]
