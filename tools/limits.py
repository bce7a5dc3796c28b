#!/usr/bin/env python3
"""Runs the built program at both sides of its limits and on long inputs, on a stack of 256 KB, with the time and the memory of each.

    python3 tools/limits.py [--json docs/figures/limits.json] [PROGRAM]

Outside the gate. Call `./tlut` once before, to build the program. A program with `compact` in its file's name is the second one. It lists no
cuts, and must map what the first one refuses for its cuts (L4, L5). It takes up to 2^20 AND nodes (L3), and counts a node below which there
are only parameters once in the work of all LUTs (L6). Each line has the time by the clock and the greatest resident memory of
a call, and whether the status, the outputs and the fault line are as expected. The last line is `N passed, M failed`, and the exit status
is 1 if M isn't 0.
"""

from __future__ import annotations

import sys
import tempfile
from typing import Iterator

import measured
import shared

# The rows of the table of limits, and which calls they are of; of several calls the most expensive one.
ROWS = {
    "a netlist, a list or a script of 2^26 + 1 bytes, refused (L1)": ("L1 of a netlist", "L1 of a list", "L1 of a script"),
    "a script of 2^26 bytes": ("a script of 2^26 bytes",),
    "a weight of 2^22, of 64 instances": ("a weight of 2^22",),
    "131,072 AND nodes, each a LUT": ("131,072 AND nodes",),
    "131,073 of them, refused (L3)": ("L3: one more",),
    "a node with 4,096 minimal [cuts](glossary.md#cut)": ("4,096 cuts of a node",),
    "more than 2^23 cuts, refused (L5) with the cut table full": ("L5: 2^23 cuts and more",),
    "a chain of 8,190 parameters, each node a LUT: the work is just within its limit": ("a chain of 8,190 parameters",),
    "8,191 of them, refused (L6)": ("L6: one more",),
    "2^20 events": ("2^20 events",),
    "65,535 parameters": ("65,535 parameters",),
    "200,000 buffers in a row": ("200,000 buffers in a row",),
    "100,000 models inside one another": ("100,000 models in one another",),
    "a [cover](glossary.md#cover) of a million rows": ("a cover of a million rows",),
    "names of a million bytes": ("names of a million bytes",),
}
PACK_ROWS = {"a [pack](glossary.md#pack) of 2^25 nodes (64 MB), of which two changes touch all": ("a pack of 2^25 nodes",)}

STACK = 256 * 1024

WIRE = ".model m\n.inputs a\n.outputs a\n.end\n"
NOTHING = "luts 0 bits 0 depth 0\n"
# What a call leaves: its status and its outputs.
Left = tuple[int, str, str]
# A title, the netlist, the list, the script and what is wanted.
Row = tuple[str, str, str, str, Left]
# A title, the arguments, the files and what is wanted.
Call = tuple[str, list[str], dict[str, bytes], Left]


def names(letter: str, count: int, first: int = 0) -> str:
    """Names of a letter and a number, each after a blank."""
    return "".join(f" {letter}{i}" for i in range(first, first + count))


def listed(letter: str, count: int, first: int = 0) -> str:
    """A list of such parameters."""
    return "".join(f"{letter}{i} 0\n" for i in range(first, first + count))


def instances(more: int) -> str:
    """64 instances of a model of the weight 65,535, and some covers: a weight of 4,194,241 and one more for each."""
    covers = "".join(f".names w{i}\n" for i in range(more))
    return ".model a\n" + ".subckt b\n" * 64 + covers + ".model b\n.names" + " y" * 65532 + " x\n.names y\n"


def products(count: int) -> str:
    """The ANDs of pairs of 600 inputs, each an output."""
    pairs = [(i, j) for i in range(600) for j in range(i)][:count]
    covers = "".join(f".names i{i} i{j} g{k}\n11 1\n" for k, (i, j) in enumerate(pairs))
    return f".model m\n.inputs{names('i', 600)}\n.outputs{names('g', count)}\n{covers}.end\n"


def leaves_of(count: int) -> tuple[list[tuple[int, int]], int]:
    """What a product of so many AND nodes is of: the pairs of inputs whose ANDs are half of the nodes, and the number of further inputs."""
    half = count // 2
    first = next(i for i in range(2, half + 3) if i * (i - 1) // 2 >= half)
    return [(i, j) for i in range(first) for j in range(i)][:half], 1 + count % 2


def product(count: int) -> str:
    """A product of the ANDs of pairs of inputs and of further inputs, with so many AND nodes. None of them has a cut of two leaves but its fan-ins."""
    pairs, more = leaves_of(count)
    covers = "".join(f".names i{i} i{j} g{k}\n11 1\n" for k, (i, j) in enumerate(pairs))
    inputs, gates, others = names("i", pairs[-1][0] + 1), names("g", len(pairs)), names("x", more)
    return f".model m\n.inputs{inputs}{others}\n.outputs y\n{covers}.names{gates}{others} y\n{'1' * (len(pairs) + more)} 1\n.end\n"


def product_in_aiger(count: int) -> str:
    """The same in AIGER's form. Its last nodes are of two levels each, so it is as deep."""
    pairs, more = leaves_of(count)
    first = pairs[-1][0] + 1
    inputs = first + more
    ands = [(2 * (1 + i), 2 * (1 + j)) for i, j in pairs]
    level = [2 * (1 + inputs + k) for k in range(len(pairs))] + [2 * (1 + first + k) for k in range(more)]
    while len(level) > 1:
        new = [2 * (1 + inputs + len(ands) + k) for k in range(len(level) // 2)]
        ands += [(max(it), min(it)) for it in zip(level[::2], level[1::2])]
        level = new + level[2 * len(new) :]
    lines = [f"aag {inputs + len(ands)} {inputs} 0 1 {len(ands)}", *(str(2 * (1 + i)) for i in range(inputs)), str(level[0])]
    lines += [f"{2 * (1 + inputs + k)} {x} {y}" for k, (x, y) in enumerate(ands)]
    return "\n".join([*lines, ""])


def free_chain(count: int) -> str:
    """A chain of so many ANDs of parameters, the last one named f."""
    ends = ["p0", *(f"e{i}" for i in range(1, count)), "f"]
    return "".join(f".names {ends[i]} p{i + 1} {ends[i + 1]}\n11 1\n" for i in range(count))


def keyed(count: int, free: int) -> str:
    """The ANDs of so many inputs with the end of a chain of ANDs of parameters, each an output."""
    covers = "".join(f".names x{i} f g{i}\n11 1\n" for i in range(count))
    return f".model keyed\n.inputs{names('x', count)}{names('p', free + 1)}\n.outputs{names('g', count)}\n{free_chain(free)}{covers}.end\n"


def keyed_chain(count: int, free: int) -> str:
    """The AND of six inputs, its AND with the end of a chain of ANDs of parameters, and a chain of ANDs of that with parameters, each an output."""
    covers = ".names a b c d e g h\n111111 1\n.names h f c1\n11 1\n"
    covers += "".join(f".names c{i} q{i} c{i + 1}\n11 1\n" for i in range(1, count))
    inputs = f" a b c d e g{names('p', free + 1)}{names('q', count - 1, 1)}"
    return f".model keyed\n.inputs{inputs}\n.outputs{names('c', count, 1)}\n{free_chain(free)}{covers}.end\n"


def chain(count: int) -> str:
    """A chain of ANDs of parameters, each an output."""
    covers = "".join(f".names {f'c{i - 1}' if i > 1 else 'p0'} p{i} c{i}\n11 1\n" for i in range(1, count + 1))
    return f".model chain\n.inputs{names('p', count + 1)}\n.outputs{names('c', count, 1)}\n{covers}.end\n"


def ladder(left: int, right: int, more: int = 0) -> str:
    """Two chains over x and y with parameters, the AND n of their ends, and further ANDs of n with a parameter each."""
    lines = [".model ladder", f".inputs x y{names('p', max(left, right), 1)}{names('q', more)}", f".outputs n{names('g', more)}"]
    for letter, before, count in (("c", "x", left), ("d", "y", right)):
        for i in range(1, count + 1):
            lines += [f".names {before} p{i} {letter}{i}", "11 1"]
            before = f"{letter}{i}"
    lines += [f".names c{left} d{right} n", "11 1"]
    for i in range(more):
        lines += [f".names n q{i} g{i}", "11 1"]
    return "\n".join([*lines, ".end", ""])


def fullest() -> int:
    """The first AND of that ladder at which there are more than 2^23 cuts: the chains' have 1 to 62 and 1 to 64, n has 4,095, and each further one has 4,096."""
    node = 1 + 2 + 64 + 2100 + 62 + 64
    return node - (-(2**23 + 1 - (62 * 63 // 2 + 64 * 65 // 2 + 4095)) // 4096)


def row(count: int) -> str:
    """Buffers in a row."""
    covers = "".join(f".names b{i} b{i + 1}\n1 1\n" for i in range(count))
    return f".model row\n.inputs b0\n.outputs b{count}\n{covers}.end\n"


def nest(count: int) -> str:
    """Models inside one another."""
    head = ".inputs i\n.outputs o\n"
    inner = "".join(f".model m{i}\n{head}.subckt m{i + 1} i=i o=o\n.end\n" for i in range(count))
    return f"{inner}.model m{count}\n{head}.names i o\n1 1\n.end\n"


def refused(word: str, line: str) -> Left:
    """What a limit leaves."""
    return 4, "", f"tlut: {word}: {line}\n"


def refused_pack(line: str) -> Left:
    """What a pack leaves that is refused."""
    return 3, "", f"tlut: k: {line}\n"


def seven_bits(number: int) -> bytes:
    """A number of a pack of version 2."""
    return bytes([number]) if number < 128 else bytes([128 + number % 128]) + seven_bits(number // 128)


def done(out: str) -> Left:
    """What a job leaves that is done."""
    return 0, out, ""


def node_rows(is_compact: bool) -> Iterator[Row]:
    """Both sides of the first program's limit of AND nodes. The second program maps both netlists."""
    yield "131,072 AND nodes", products(131072), "", "", done("luts 131072 bits 524288 depth 1\n")
    more = done("luts 131073 bits 524292 depth 1\n") if is_compact else refused("n", "L3 TooManyNodes")
    yield "L3: one more", products(131073), "", "", more


def node_calls(is_compact: bool) -> Iterator[Call]:
    """Both sides of the program's limit of AND nodes, for each command that builds a graph."""
    most, depth = (2**20, 21) if is_compact else (2**17, 18)
    inputs = leaves_of(most)[0][-1][0] + 2
    header = f"luts {most} bits {4 * most} depth {depth}\n"
    commands = {
        "graph n p o": f"inputs {inputs} latches 0 ands {most}\n",
        "map 2 n p t k": header,
        "run 2 n p s 0 0": header,
        "prove 2 n p c": f"depth {depth}\n",
        "audit 2 n p c": "depth at least 0\n",
        "pace 2 n p s 1": header,
        "graph a p o": f"inputs {inputs} latches 0 ands {most}\n",
        "run 2 a p s 0 0": header,
    }
    for count in (most, most + 1):
        files = {"n": product(count), "a": product_in_aiger(count), "p": "", "s": "", "c": "depth 0\n"}
        for command, printed in commands.items():
            words = command.split()
            netlist = "a" if "a" in words else "n"
            wanted = done(printed) if count == most else refused(netlist, "L3 TooManyNodes")
            title = f"{count:,} AND nodes{' in AIGER' if netlist == 'a' else ''}, {words[0]}"
            yield title, words, {name: files[name].encode() for name in words if name in files}, wanted


def work_calls(is_compact: bool) -> Iterator[Call]:
    """Both sides of the work of LUTs with nodes below which there are only parameters.

    4,096 LUTs of 2 bits and of F + 1 nodes, F of these shared: 8,192 (F + 2), which is 2^25 with 4,094; counted once it is far less.
    1,017 LUTs of 64 bits, of 6 to 1,022 nodes and the same F: 33,520,320 + F, which is 2^25 with 34,112.
    """
    over = refused("n", "L6 Work")
    for free in (4094, 4095):
        files = {"n": keyed(4096, free).encode(), "p": listed("p", free + 1).encode(), "s": b""}
        wanted = over if free == 4095 and not is_compact else done("luts 4096 bits 8192 depth 1\n")
        yield f"{free:,} shared nodes in 4,096 LUTs", ["run", "2", "n", "p", "s", "0", "0"], files, wanted
    for free in (34112, 34113):
        params = listed("p", free + 1) + listed("q", 1016, 1)
        files = {"n": keyed_chain(1017, free).encode(), "p": params.encode(), "s": b""}
        wanted = done("luts 1017 bits 65088 depth 1\n") if free == 34112 and is_compact else over
        yield f"{free:,} shared nodes in 1,017 LUTs", ["run", "6", "n", "p", "s", "0", "0"], files, wanted


def cut_rows(is_compact: bool) -> Iterator[Row]:
    """Both sides of the limits of minimal cuts. The second program doesn't list them, and maps all of these netlists."""
    yield "4,096 cuts of a node", ladder(63, 63), listed("p", 63, 1), "", done("luts 1 bits 4 depth 1\n")
    at_node = done("luts 1 bits 4 depth 1\n") if is_compact else refused("n", "L4 NodeCuts node 194")
    yield "L4: more", ladder(63, 64), listed("p", 64, 1), "", at_node
    in_all = done("luts 2101 bits 8404 depth 1\n") if is_compact else refused("n", f"L5 TotalCuts node {fullest()}")
    yield "L5: 2^23 cuts and more", ladder(62, 64, 2100), listed("p", 64, 1) + listed("q", 2100), "", in_all


def rows(is_compact: bool) -> Iterator[Row]:
    """All inputs of `run`, for the first or the second program."""
    full = "\n" * 2**26
    yield "L1 of a netlist", full + "\n", "", "", refused("n", "L1 FileTooLong")
    yield "L1 of a list", WIRE, full + "\n", "", refused("p", "L1 FileTooLong")
    yield "L1 of a script", WIRE, "", full + "\n", refused("s", "L1 FileTooLong")
    yield "a script of 2^26 bytes", WIRE, "", full, done(NOTHING)
    yield "a weight of 2^22", instances(63), "", "", done(NOTHING)
    yield "L2: one more", instances(64), "", "", refused("n", "L2 TooLarge")
    yield from node_rows(is_compact)
    yield from cut_rows(is_compact)
    yield "a chain of 8,190 parameters", chain(8190), listed("p", 8191), "", done("luts 8190 bits 8190 depth 0\n")
    at_work = done("luts 8191 bits 8191 depth 0\n") if is_compact else refused("n", "L6 Work")
    yield "L6: one more", chain(8191), listed("p", 8192), "", at_work
    deep = chain(60000).replace(names("c", 60000, 1), " c60000")
    yield "a chain of 60,000 parameters, one output", deep, listed("p", 60001), "set p0=1\n", done("luts 1 bits 1 depth 0\nset 0\n")
    yield "2^20 events", WIRE, "", "cycle 1\n" * 2**20, done(NOTHING + "cycle 1 -\n" * 2**20)
    yield "L7: one more", WIRE, "", "image\n" * (2**20 + 1), refused("s", "L7 Events line 1048577")
    wide = f".model m\n.inputs{names('v', 65537)}\n.end\n"
    yield "65,535 parameters", wide, listed("v", 65535), "cycle 10\nset v65534=1\n", done(NOTHING + "cycle - -\nset 0\n")
    yield "L8: one more", wide, listed("v", 65536), "", refused("p", "L8 Parameters line 65536")
    yield "200,000 buffers in a row", row(200000), "", "cycle 1\n", done(NOTHING + "cycle 1 -\n")
    yield "100,000 models in one another", nest(100000), "", "cycle 1\n", done(NOTHING + "cycle 1 -\n")
    cover = ".model m\n.inputs a b\n.outputs y\n.names a b y\n" + "11 1\n" * 1000000 + ".end\n"
    yield "a cover of a million rows", cover, "", "cycle 11\n", done("luts 1 bits 4 depth 1\ncycle 1 -\n")
    long = "n" * 1000000
    yield "names of a million bytes", f".model {long}\n.inputs {long}\n.outputs {long}\n.end\n", "", "cycle 1\n", done(NOTHING + "cycle 1 -\n")


def call(program: str, folder: str, words: list[str]) -> tuple[Left, float, int]:
    """What a call leaves, its time and its memory in MB."""
    took = measured.run(folder, [program, *words], STACK)
    return (took.status, open(f"{folder}/out").read(), open(f"{folder}/err").read()), took.clock, took.megabytes


def calls(is_compact: bool) -> Iterator[Call]:
    """The title, the arguments, the files and the expected result of each call."""
    for title, netlist, params, script, wanted in rows(is_compact):
        yield title, ["run", "2", "n", "p", "s", "0", "0"], {"n": netlist.encode(), "p": params.encode(), "s": script.encode()}, wanted
    yield from node_calls(is_compact)
    yield from work_calls(is_compact)
    # Each node of this pack has the two before it as its fan-ins, the first ones the two parameters.
    count = 2**25
    pack = b"TPPC\x00\x02\x02\x01p\x00\x01q\x01" + seven_bits(count) + b"\x02\x02" * count + seven_bits(1) + seven_bits(2 * (2 + count))
    yield "a pack of 2^25 nodes", ["bits", "k", "s"], {"k": pack, "s": b"set p=1\nset q=0\n"}, done("bits 1\nset 1 0=1\nset 1 0=0\n")
    yield "K5: one more", ["bits", "k", "s"], {"k": pack[:13] + seven_bits(count + 1) + b"\x02\x02", "s": b""}, refused_pack("K5 BadNode byte 13")


def main() -> int:
    parser = shared.saving(shared.words(__doc__))
    parser.add_argument("program", metavar="PROGRAM", nargs="?", type=shared.path_of, default=shared.PROGRAM, help="the program that is tried")
    given, passed, failed = parser.parse_args(), 0, 0
    found: dict[str, dict[str, float]] = {}
    for title, words, files, wanted in calls(shared.is_compact(given.program)):
        with tempfile.TemporaryDirectory() as folder:
            for name, content in files.items():
                with open(f"{folder}/{name}", "wb") as file:
                    file.write(content)
            left, seconds, megabytes = call(given.program, folder, words)
        found[title] = {"seconds": round(seconds, 1), "megabytes": megabytes}
        outcome = left == wanted
        print(f"{title}: {seconds:.1f} s, {megabytes} MB{'' if outcome else f', NO: {left[0]} {left[1][:80]!r} {left[2][:80]!r}'}", flush=True)
        passed, failed = passed + outcome, failed + (not outcome)
    shared.save(given.json, found)
    return shared.summary(passed, failed)


if __name__ == "__main__":
    sys.exit(main())
