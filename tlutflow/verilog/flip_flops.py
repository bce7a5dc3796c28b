"""The generic target: configuration bits in flip-flops, which any device has, behind one of two ports.

`chain` shifts all bits in, one a period and region, into a register that the circuit doesn't see, and shows them at once. `random` writes the
bit of an address at each period; the cells stand in rows and columns, and each has its row and its column as its decoder. It also writes
words of several bits, whose flip-flops have one enable.
"""

from __future__ import annotations

from tlutflow.circuit import Circuit, Lut
from tlutflow.verilog.names import Names
from tlutflow.verilog.store import Store, check_writes, regions_of
from tlutflow.verilog.tables import Operation, binary, selected, vector


class FlipFlops:
    """Cells of flip-flops; what its two ports have in common."""

    model = ""

    def __init__(self, circuit: Circuit, names: Names, store: Store):
        self.circuit, self.names, self.store = circuit, names, store
        self.place_of = {cell: cell for cell in range(store.size)}

    def inside(self, address: int) -> str:
        """What a bit is, as an expression of the circuit."""
        if address not in self.store.places:
            return f"1'b{self.store.start[address]}"
        cell, complement = self.store.places[address]
        return f"{'~' if complement else ''}{self.names.config['bits']}[{self.place_of[cell]}]"

    def seen(self, address: int) -> str:
        """What a bit is, as a test bench sees it from above."""
        return self.inside(address).replace(self.names.config["bits"], f"circuit.{self.names.config['bits']}")

    def lut_lines(self, number: int, lut: Lut) -> list[str]:
        """The lines of a LUT: a choice among its bits."""
        bits = [self.inside(address) for address in lut.addresses]
        return selected(self.names, number, lut, bits)


class Chain(FlipFlops):
    """Chains of cells, one a region, with a copy that the circuit sees."""

    def __init__(self, circuit: Circuit, names: Names, store: Store, regions: int):
        super().__init__(circuit, names, store)
        self.regions = regions_of(store, len(circuit.pack.bits), regions)
        self.order = [cell for region in self.regions for cell in region]
        self.place_of = {cell: place for place, cell in enumerate(self.order)}

    def declarations(self) -> list[str]:
        """The lines of the port."""
        span = vector(len(self.regions))
        config = self.names.config
        parts = [("input ", "clk"), (f"input {span}", "we"), (f"input {span}", "in"), ("input ", "commit"), (f"output {span}", "out")]
        return [direction + config[word] for direction, word in parts]

    def comment(self) -> str:
        """What the port does, in lines of a comment."""
        config = self.names.config
        lengths = " and ".join(str(len(region)) for region in self.regions)
        return f"""// At a rising edge of {config['clk']} with {config['we']} the chain takes {config['in']}, and its first bit leaves it as
// {config['out']}. After {lengths} such edges {config['commit']} shows the whole chain to the circuit at once.
// `flow stream` prints what to send."""

    def lines(self) -> list[str]:
        """The chains, their copy, and how they shift."""
        config, size = self.names.config, self.store.size
        if not size:
            return [f"    assign {config['out']} = {config['in']};"]
        values = self.store.values(self.store.start)
        start = binary([values[cell] for cell in self.order])
        made = [f"    reg {vector(size, True)}{config[it]} = {start};" for it in ("chain", "bits")]
        shifts, first = [], 0
        for number, region in enumerate(self.regions):
            shifts += self.shift(number, first, len(region))
            first += len(region)
        ends = [line for line in shifts if line.startswith("    assign")]
        steps = [line for line in shifts if not line.startswith("    assign")]
        shown = [f"        if ({config['commit']})", f"            {config['bits']} <= {config['chain']};"]
        return [*made, f"    always @(posedge {config['clk']}) begin", *steps, *shown, "    end", *ends]

    def shift(self, number: int, first: int, size: int) -> list[str]:
        """The lines of one chain, whose lowest place leaves it first."""
        config = self.names.config
        at = "" if len(self.regions) == 1 else f"[{number}]"
        if size == 0:
            return [f"    assign {config['out']}{at} = {config['in']}{at};"]
        chain, high = config["chain"], first + size - 1
        kept = f", {chain}[{high}:{first + 1}]" if size > 1 else ""
        end = f"    assign {config['out']}{at} = {chain}[{first}];"
        return [f"        if ({config['we']}{at})", f"            {chain}[{high}:{first}] <= {{{config['in']}{at}{kept}}};", end]

    def operations(self, before: list[int], after: list[int], writes: list[tuple[int, int]], text: str) -> list[Operation]:
        """What is sent for some writes: all of each chain that holds one."""
        check_writes(self.store, writes, before, text.startswith("upset"), text)
        touched = {self.store.places[address][0] for address, _ in writes if address in self.store.places}
        sent = ["".join(map(str, self.digits(region, after))) if touched & set(region) else "-" for region in self.regions]
        return [Operation("load", sent)] if touched else []

    def whole(self, configuration: list[int]) -> list[Operation]:
        """What is sent for a whole configuration."""
        return [Operation("load", ["".join(map(str, self.digits(region, configuration))) or "-" for region in self.regions])]

    def digits(self, region: list[int], configuration: list[int]) -> list[int]:
        """The bits of a region in the order in which they are sent."""
        return [configuration[self.store.cells[cell]] for cell in region]


class Random(FlipFlops):
    """Cells with addresses, in rows and columns."""

    # How many bits a write has, and the short word of the port that has them.
    word, data = 1, "bit"

    def declarations(self) -> list[str]:
        """The lines of the port."""
        config, data = self.names.config, f"input {vector(self.word)}{self.names.config[self.data]}"
        return [*(f"input {config[it]}" for it in ("clk", "we")), data, f"input {vector(self.width, True)}{config['addr']}"]

    @property
    def addresses(self) -> int:
        """How many addresses there are."""
        return -(-self.store.size // self.word)

    @property
    def width(self) -> int:
        """How many digits an address has."""
        return max(1, (self.addresses - 1).bit_length())

    def comment(self) -> str:
        """What the port does, in lines of a comment."""
        config = self.names.config
        return f"""// At a rising edge of {config['clk']} with {config['we']} the bit with the number {config['addr']} becomes {config['bit']}.
// There are {self.store.size} of them; `flow stream` prints what to send."""

    def lines(self) -> list[str]:
        """The cells and their decoder of two levels."""
        config, size, low = self.names.config, self.store.size, self.width // 2
        if not size:
            return []
        start = binary(self.store.values(self.store.start))
        rows, columns = (size - 1 >> low) + 1, min(size, 1 << low)
        high = f"{config['addr']}[{self.width - 1}:{low}]"
        lines = [f"    reg {vector(size, True)}{config['bits']} = {start};", f"    wire {vector(rows, True)}{config['row']};"]
        lines += [f"    assign {config['row']}[{row}] = {config['we']} && {high} == {self.width - low}'d{row};" for row in range(rows)]
        column_of = ["1'b1"]
        if low:
            lines.append(f"    wire {vector(columns, True)}{config['column']};")
            lines += [f"    assign {config['column']}[{it}] = {config['addr']}[{low - 1}:0] == {low}'d{it};" for it in range(columns)]
            column_of = [f"{config['column']}[{it}]" for it in range(columns)]
        lines.append(f"    wire {vector(size, True)}{config['hit']};")
        for cell in range(size):
            lines.append(f"    assign {config['hit']}[{cell}] = {config['row']}[{cell >> low}] & {column_of[cell & (1 << low) - 1]};")
        # Gates instead of an if: a flip-flop with an enable of its own would take a whole tile of most devices.
        now = "{bits} <= {bits} & ~{hit} | {hit} & {{{size}{{{bit}}}}};".format(**config, size=size)
        return [*lines, f"    always @(posedge {config['clk']})", f"        {now}"]

    def operations(self, before: list[int], after: list[int], writes: list[tuple[int, int]], text: str) -> list[Operation]:
        """What is sent for some writes: each cell once."""
        check_writes(self.store, writes, before, text.startswith("upset"), text)
        cells = {self.store.places[address][0] for address, _ in writes if address in self.store.places}
        return [self.write(number, after) for number in sorted({cell // self.word for cell in cells})]

    def whole(self, configuration: list[int]) -> list[Operation]:
        """What is sent for a whole configuration."""
        return [self.write(number, configuration) for number in range(self.addresses)]

    def write(self, number: int, configuration: list[int]) -> Operation:
        """The write of an address, whose digits begin with the highest cell."""
        cells = self.store.cells[number * self.word : (number + 1) * self.word]
        return Operation("write", [str(number), "".join(str(configuration[address]) for address in reversed(cells))])


class Words(Random):
    """Cells in words, each of which is written at once. The flip-flops of a word have one enable, and no gate of their own."""

    data = "data"

    def __init__(self, circuit: Circuit, names: Names, store: Store, word: int):
        super().__init__(circuit, names, store)
        self.word = word

    def comment(self) -> str:
        """What the port does, in lines of a comment."""
        config = self.names.config
        return f"""// At a rising edge of {config['clk']} with {config['we']} the word with the number {config['addr']} becomes {config['data']}.
// There are {self.addresses} of them, with {self.store.size} bits; `flow stream` prints what to send."""

    def lines(self) -> list[str]:
        """The words and their decoder."""
        config, size = self.names.config, self.store.size
        if not size:
            return []
        lines = [f"    reg {vector(size, True)}{config['bits']} = {binary(self.store.values(self.store.start))};"]
        for number in range(self.addresses):
            first, high = number * self.word, min(size, (number + 1) * self.word) - 1
            lines += [
                f"    always @(posedge {config['clk']})",
                f"        if ({config['we']} && {config['addr']} == {self.width}'d{number})",
                f"            {config['bits']}[{high}:{first}] <= {config['data']}[{high - first}:0];",
            ]
        return lines
