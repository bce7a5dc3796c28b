#!/usr/bin/env python3
"""Compares what the built program bench_mapping counts at each stage with a model in Python of the stages' rules.

    python3 tools/stage_counts.py [PROGRAM]

Outside the gate. Build the program before, with `rt run` in crates/bench_mapping. Its netlists are the designs of tools/designs.py and the
examples, with LUTs of 2 and of 4 inputs. The last line is `N passed, M failed`, and the exit status is 1 if M isn't 0.
"""

from __future__ import annotations

import subprocess
import sys
import tempfile
from typing import Iterator

import shared
from designs import write

EVENTS = 100
# The leaves of a cut.
Cut = frozenset[int]


class Graph:
    """ANDs of two literals, each once, over sources. A literal is twice a node, and one more for its complement."""

    def __init__(self, sources: int) -> None:
        self.sources = sources
        self.pairs: list[tuple[int, int]] = []
        self.places: dict[tuple[int, int], int] = {}

    def product(self, a: int, b: int) -> int:
        x, y = min(a, b), max(a, b)
        if x == 0 or x ^ 1 == y:
            return 0
        if x == 1 or x == y:
            return y
        if (x, y) not in self.places:
            self.places[x, y] = 2 * (1 + self.sources + len(self.pairs))
            self.pairs.append((x, y))
        return self.places[x, y]

    def product_of(self, lits: list[int]) -> int:
        """The product of some literals: that of the products of their halves, of which the first is not the smaller."""
        if len(lits) < 2:
            return lits[0] if lits else 1
        half = (len(lits) + 1) // 2
        return self.product(self.product_of(lits[:half]), self.product_of(lits[half:]))

    def values(self, sources: list[int], lits: list[int]) -> list[int]:
        nodes = [0, *sources]
        for x, y in self.pairs:
            nodes.append((nodes[x // 2] ^ x & 1) & (nodes[y // 2] ^ y & 1))
        return [nodes[lit // 2] ^ lit & 1 for lit in lits]


class Netlist:
    """A netlist of one model, and its graph."""

    def __init__(self, text: str, listed: str) -> None:
        self.inputs: list[str] = []
        self.outputs: list[str] = []
        self.latches: list[tuple[str, str, int]] = []
        self.covers: dict[str, tuple[list[str], list[list[str]]]] = {}
        rows: list[list[str]] = []
        clocks: set[str] = set()
        for line in text.replace("\\\n", " ").splitlines():
            words = line.split("#")[0].split()
            if not words:
                continue
            if words[0] == ".inputs":
                self.inputs += words[1:]
            elif words[0] == ".outputs":
                self.outputs += words[1:]
            elif words[0] == ".latch":
                self.latches.append((words[1], words[2], int(words[-1])))
                clocks |= set(words[4:5])
            elif words[0] == ".names":
                rows = []
                self.covers[words[-1]] = (words[1:-1], rows)
            elif words[0][0] != ".":
                rows.append(words)
        self.inputs = [name for name in self.inputs if name not in clocks]
        pairs = [line.split("#")[0].split() for line in listed.splitlines()]
        self.params = {pair[0]: int(pair[1]) for pair in pairs if pair}
        self.regular = [name for name in self.inputs if name not in self.params]
        sources = self.regular + list(self.params) + [state for _, state, _ in self.latches]
        self.graph = Graph(len(sources))
        self.lits = {name: 2 * (1 + i) for i, name in enumerate(sources)}
        self.roots = [self.lit(name) for name in self.outputs + [after for after, _, _ in self.latches]]

    def lit(self, name: str) -> int:
        if name not in self.lits:
            nets, rows = self.covers[name]
            lits = [self.lit(net) for net in nets]
            terms = [self.graph.product_of([lit ^ (at == "0") for lit, at in zip(lits, row[0]) if at != "-"] if nets else []) for row in rows]
            off = self.graph.product_of([term ^ 1 for term in terms])
            self.lits[name] = off if rows and rows[0][-1] == "0" else off ^ 1
        return self.lits[name]

    def is_free(self, node: int) -> bool:
        """Is it the constant, or a parameter?"""
        return node == 0 or len(self.regular) < node <= len(self.regular) + len(self.params)

    def is_source(self, node: int) -> bool:
        return node <= self.graph.sources


def minimal_cuts(netlist: Netlist, k: int) -> list[list[Cut]]:
    """The minimal cuts of at most k leaves of each node, none for sources."""
    cuts: list[list[Cut]] = []
    fronts: list[list[Cut]] = []
    for node in range(1 + netlist.graph.sources + len(netlist.graph.pairs)):
        kept: list[Cut] = []
        if not netlist.is_source(node):
            x, y = netlist.graph.pairs[node - 1 - netlist.graph.sources]
            joined = {a | b for a in fronts[x // 2] for b in fronts[y // 2]}
            for cut in sorted((cut for cut in joined if len(cut) <= k), key=len):
                if not any(less <= cut for less in kept):
                    kept.append(cut)
        cuts.append(kept)
        empty = netlist.is_free(node) or frozenset() in kept
        fronts.append([frozenset()] if empty else [*kept, frozenset([node])])
    return cuts


def labels_of(cuts: list[list[Cut]]) -> list[int]:
    """The least depth that each node can have."""
    labels: list[int] = []
    for kept in cuts:
        labels.append(min((max((labels[leaf] + 1 for leaf in cut), default=0) for cut in kept), default=0))
    return labels


def tables_of(netlist: Netlist, cuts: list[list[Cut]], labels: list[int]) -> tuple[dict[int, list[int]], int]:
    """The leaves of each literal that has a table, and their depth."""
    def height(cut: Cut) -> int:
        return max((labels[leaf] + 1 for leaf in cut), default=0)

    def level(lit: int) -> int:
        return labels[lit // 2] if netlist.is_free(lit // 2) or not netlist.is_source(lit // 2) else lit & 1

    depth = max(map(level, netlist.roots), default=0)
    required = {lit // 2: depth for lit in netlist.roots}
    tables: dict[int, list[int]] = {lit: [] for lit in netlist.roots if netlist.is_free(lit // 2)}
    tables |= {lit: [lit // 2] for lit in netlist.roots if lit & 1 and lit not in tables and netlist.is_source(lit // 2)}
    wanted = {lit for lit in netlist.roots if not netlist.is_source(lit // 2)}
    for node in range(len(cuts) - 1, netlist.graph.sources, -1):
        phases = [lit for lit in (2 * node, 2 * node + 1) if lit in wanted]
        if phases:
            low = [cut for cut in cuts[node] if height(cut) <= required[node]]
            least = min(low, key=lambda it: (len(it), height(it), sorted(it)))
            cut = sorted(least)
            tables |= {lit: cut for lit in phases}
            for leaf in cut:
                required[leaf] = min(required[node] - 1, required.get(leaf, depth))
                wanted |= set() if netlist.is_source(leaf) else {2 * leaf}
    return tables, depth


def functions_of(netlist: Netlist, tables: dict[int, list[int]]) -> tuple[Graph, list[int]]:
    """The bits of all tables as literals of one graph over the parameters."""
    pack = Graph(len(netlist.params))
    bits = []

    def value(node: int, values: dict[int, int]) -> int:
        if node not in values:
            if netlist.is_free(node):
                values[node] = 2 * (node - len(netlist.regular)) if node else 0
            else:
                low, high = (value(lit // 2, values) ^ lit & 1 for lit in netlist.graph.pairs[node - 1 - netlist.graph.sources])
                values[node] = pack.product(low, high)
        return values[node]

    for lit in sorted(tables):
        leaves = tables[lit]
        for address in range(2 ** len(leaves)):
            bits.append(value(lit // 2, {leaf: address >> i & 1 for i, leaf in enumerate(leaves)}) ^ lit & 1)
    return pack, bits


def numbers() -> Iterator[int]:
    """Numbers that look random: Knuth's MMIX generator."""
    state = 1
    while True:
        state = (state * 6364136223846793005 + 1442695040888963407) % 2 ** 64
        yield (state >> 33) % 2 ** 32


def count_ones(netlist: Netlist) -> int:
    """How many outputs are 1 in all cycles."""
    states, ones, drawn = [init for _, _, init in netlist.latches], 0, numbers()
    for _ in range(EVENTS):
        inputs = [next(drawn) % 2 for _ in netlist.regular]
        roots = netlist.graph.values([*inputs, *netlist.params.values(), *states], netlist.roots)
        ones, states = ones + sum(roots[: len(netlist.outputs)]), roots[len(netlist.outputs) :]
    return ones


def count_writes(netlist: Netlist, pack: Graph, bits: list[int]) -> int:
    """How many bits all changes turn."""
    params, writes, drawn = [*netlist.params.values()], 0, numbers()
    before = pack.values(params, bits)
    for _ in range(EVENTS):
        params[next(drawn) % len(params)] ^= 1
        after = pack.values(params, bits)
        writes, before = writes + sum(a != b for a, b in zip(before, after)), after
    return writes


def expected(files: list[str], k: int) -> str:
    """What the program has to print."""
    netlist = Netlist(*(open(file, encoding="ascii").read() for file in files))
    cuts = minimal_cuts(netlist, k)
    labels = labels_of(cuts)
    tables, depth = tables_of(netlist, cuts, labels)
    pack, bits = functions_of(netlist, tables)
    lines = ["read: 1 models"]
    lines.append(f"flatten: {len(netlist.inputs)} inputs, {len(netlist.covers)} covers, {len(netlist.latches)} latches")
    lines.append(f"graph: {netlist.graph.sources} sources, {len(netlist.graph.pairs)} AND nodes")
    lines.append(f"cuts: {sum(map(len, cuts))} cuts")
    lines.append(f"labels: greatest {max(labels)}, K {k}")
    lines.append(f"certificate: depth {depth}")
    lines.append(f"cover: {len(tables)} tables, depth {depth}")
    lines.append(f"functions: {len(bits)} bits, {len(pack.pairs)} pack nodes")
    lines.append(f"cycles: {EVENTS}, {count_ones(netlist)} outputs were 1")
    if netlist.params:
        lines.append(f"changes: {EVENTS}, {count_writes(netlist, pack, bits)} writes")
    return "\n".join([*lines, ""])


def main() -> int:
    program = shared.one_program(__doc__, shared.MEASURED)
    passed = failed = 0
    with tempfile.TemporaryDirectory() as room:
        for name, files in write(room).items():
            for k in (2, 4):
                ran = subprocess.run([program, "stages", str(k), *files, str(EVENTS), str(EVENTS), "counts"], capture_output=True, text=True, check=False)
                wanted = expected(files, k)
                same = ran.returncode == 0 and ran.stdout == wanted
                passed, failed = passed + same, failed + (not same)
                print(f"{name}, K {k}: {'passed' if same else 'FAILED'}", flush=True)
                if not same:
                    print(f"status {ran.returncode}\nprinted\n{ran.stdout}wanted\n{wanted}")
    return shared.summary(passed, failed)


if __name__ == "__main__":
    sys.setrecursionlimit(100_000)
    sys.exit(main())
