#!/usr/bin/env python3
"""Times changes of parameters by `tlut bits`, by the library for host programs, and by a loop in C over the part of the pack that each parameter
reaches.

    python3 tools/change_anchor.py [--json docs/figures/changes.json] [NETLIST PARAMS K]

Outside the gate. Call `./tlut` once before, to build the program, and build the library by `make -C include`; it needs a C compiler (`cc`). Without arguments it takes the filter of
tools/designs.py at K 6, whose pack is the largest of that file's.

Each change flips one parameter, drawn with a fixed seed. The loop evaluates every node that the parameter reaches, in order, and
compares every bit that it reaches, without testing what has changed: what a compiler generates from the pack alone. `tlut bits` reads each
change as a line, follows what changes, and prints each write. The library does the same without text: a call of `tlut_set`, and one of
`tlut_writes`. All times are CPU time per change, the least of some runs, without the start of the program, and all must find the same
number of writes.
"""

from __future__ import annotations

import os
import resource
import subprocess
import sys
import tempfile

TOP = os.path.dirname(os.path.dirname(os.path.abspath(__file__)))
sys.path.insert(0, TOP)
sys.path.insert(0, f"{TOP}/tools")

import designs
import shared
from tlutflow import tools
from tlutflow.faults import Fault
from tlutflow.pack import Pack, read_pack
from tlutflow.text import write_text

CHANGES = 10_000
RUNS = 5
LOOP = r"""
#include <stdio.h>
#include <stdlib.h>
#include <time.h>
static unsigned *numbers(FILE *in, unsigned count) {
    unsigned *found = malloc((count + 1) * sizeof *found);
    for (unsigned i = 0; i < count; i++) if (fscanf(in, "%u", &found[i]) != 1) exit(1);
    return found;
}
int main(int argc, char **argv) {
    FILE *in = fopen(argv[1], "r");
    unsigned params, nodes, bits, changes;
    if (argc != 2 || !in || fscanf(in, "%u %u %u %u", &params, &nodes, &bits, &changes) != 4) return 1;
    unsigned first = 1 + params, *starts = numbers(in, params), *fans = numbers(in, 2 * nodes), *literals = numbers(in, bits);
    unsigned **cone = malloc(params * sizeof *cone), **reached = malloc(params * sizeof *reached), *cones = malloc(4 * params), *reaches = malloc(4 * params);
    for (unsigned p = 0; p < params; p++) {
        if (fscanf(in, "%u %u", &cones[p], &reaches[p]) != 2) return 1;
        cone[p] = numbers(in, cones[p]); reached[p] = numbers(in, reaches[p]);
    }
    unsigned *turned = numbers(in, changes);
    unsigned char *value = calloc(first + nodes, 1), *held = calloc(bits + 1, 1);
    for (unsigned p = 0; p < params; p++) value[1 + p] = starts[p];
    for (unsigned i = 0; i < nodes; i++) { unsigned x = fans[2 * i], y = fans[2 * i + 1]; value[first + i] = (value[x >> 1] ^ (x & 1)) & (value[y >> 1] ^ (y & 1)); }
    for (unsigned b = 0; b < bits; b++) held[b] = value[literals[b] >> 1] ^ (literals[b] & 1);
    unsigned long writes = 0;
    clock_t begun = clock();
    for (unsigned c = 0; c < changes; c++) {
        unsigned p = turned[c];
        value[1 + p] ^= 1;
        for (unsigned j = 0; j < cones[p]; j++) { unsigned i = cone[p][j], x = fans[2 * i], y = fans[2 * i + 1]; value[first + i] = (value[x >> 1] ^ (x & 1)) & (value[y >> 1] ^ (y & 1)); }
        for (unsigned j = 0; j < reaches[p]; j++) { unsigned b = reached[p][j]; unsigned char now = value[literals[b] >> 1] ^ (literals[b] & 1); if (now != held[b]) { held[b] = now; writes++; } }
    }
    printf("%lu %.9f\n", writes, (double)(clock() - begun) / CLOCKS_PER_SEC / changes);
    return 0;
}
"""
HOST = r"""
#include <stdio.h>
#include <stdlib.h>
#include <time.h>
#include "tlut_host.h"
int main(int argc, char **argv) {
    FILE *in = argc == 3 ? fopen(argv[1], "rb") : NULL, *turns = argc == 3 ? fopen(argv[2], "r") : NULL;
    if (!in || !turns || fseek(in, 0, SEEK_END)) return 1;
    size_t length = ftell(in), parameters, bits, count;
    uint8_t *bytes = malloc(length);
    rewind(in);
    tlut_host host = TLUT_HOST_CLOSED;
    tlut_refusal refusal = {0, 0};
    if (fread(bytes, 1, length, in) != length || tlut_open(bytes, length, &host, &refusal) || tlut_counts(&host, &parameters, &bits)) return 1;
    tlut_write *writes = calloc(bits, sizeof *writes);
    bool *values = calloc(parameters, sizeof *values);
    unsigned changes, *turned;
    if (tlut_values(&host, values, parameters, &count) || fscanf(turns, "%u", &changes) != 1) return 1;
    turned = malloc(changes * sizeof *turned);
    for (unsigned i = 0; i < changes; i++) if (fscanf(turns, "%u", &turned[i]) != 1) return 1;
    unsigned long found = 0;
    clock_t begun = clock();
    for (unsigned i = 0; i < changes; i++) {
        tlut_setting setting = {(uint16_t)turned[i], values[turned[i]] = !values[turned[i]]};
        if (tlut_set(&host, &setting, 1) || tlut_writes(&host, writes, bits, &count)) return 1;
        found += count;
    }
    printf("%lu %.9f\n", found, (double)(clock() - begun) / CLOCKS_PER_SEC / changes);
    return tlut_close(&host);
}
"""


def reach(pack: Pack) -> list[tuple[list[int], list[int]]]:
    """For each parameter the nodes and the bits that it reaches, in order."""
    count = len(pack.parameters)
    read = [0, *(1 << place for place in range(count))]
    for x, y in pack.nodes:
        read.append(read[x >> 1] | read[y >> 1])
    found = []
    for place in range(count):
        nodes = [i for i in range(len(pack.nodes)) if read[1 + count + i] >> place & 1]
        found.append((nodes, [i for i, literal in enumerate(pack.bits) if read[literal >> 1] >> place & 1]))
    return found


def drawn(count: int) -> list[int]:
    """The parameter that each change turns: a linear congruence, the high digits of it."""
    state, found = 1, []
    for _ in range(CHANGES):
        state = (state * 6364136223846793005 + 1442695040888963407) % 2**64
        found.append((state >> 33) % count)
    return found


def used() -> float:
    took = resource.getrusage(resource.RUSAGE_CHILDREN)
    return took.ru_utime + took.ru_stime


def timed(words: list[str], room: str) -> tuple[float, str]:
    """The least processor time of some runs of a command, and what the last one printed."""
    took = []
    for _ in range(RUNS):
        before = used()
        ran = subprocess.run(words, cwd=room, capture_output=True, text=True, check=True)
        took.append(used() - before)
    return min(took), ran.stdout


def by_loop(pack: Pack, turned: list[int], room: str) -> tuple[int, float, float]:
    """The writes and the seconds a change by the loop in C."""
    parts = reach(pack)
    with open(f"{room}/pack.txt", "w", encoding="ascii") as file:
        print(len(parts), len(pack.nodes), len(pack.bits), len(turned), *pack.parameters.values(), file=file)
        print(*(literal for pair in pack.nodes for literal in pair), *pack.bits, file=file)
        for nodes, bits in parts:
            print(len(nodes), len(bits), *nodes, *bits, file=file)
        print(*turned, file=file)
    write_text(f"{room}/loop.c", LOOP)
    subprocess.run(["cc", "-O2", "-o", f"{room}/loop", f"{room}/loop.c"], check=True)
    found = [subprocess.run([f"{room}/loop", f"{room}/pack.txt"], capture_output=True, text=True, check=True).stdout.split() for _ in range(RUNS)]
    reached = sum(len(it[0]) for it in parts) / len(parts)
    return int(found[0][0]), min(float(it[1]) for it in found), reached


def by_bits(pack: Pack, turned: list[int], room: str) -> tuple[int, float]:
    """The writes and the seconds a change by `tlut bits`."""
    names, values, lines = list(pack.parameters), list(pack.parameters.values()), []
    for place in turned:
        values[place] ^= 1
        lines.append(f"set {names[place]}={values[place]}\n")
    write_text(f"{room}/walk.scr", "".join(lines))
    write_text(f"{room}/empty.scr", "")
    program = f"{TOP}/crates/tlut/out/tlut"
    none, _ = timed([program, "bits", "bits.ppc", "empty.scr"], room)
    some, printed = timed([program, "bits", "bits.ppc", "walk.scr"], room)
    return sum(int(line.split()[1]) for line in printed.splitlines()[1:]), (some - none) / len(turned)


def by_library(turned: list[int], room: str) -> tuple[int, float]:
    """The writes and the seconds a change by the library."""
    write_text(f"{room}/host.c", HOST)
    write_text(f"{room}/turned.txt", " ".join(map(str, [len(turned), *turned])))
    library = [f"-I{TOP}/include", "-o", f"{room}/host", f"{room}/host.c", f"{TOP}/include/build/libtlut_host.a"]
    subprocess.run(["cc", "-O2", *library], check=True)
    words = [f"{room}/host", f"{room}/bits.ppc", f"{room}/turned.txt"]
    found = [subprocess.run(words, capture_output=True, text=True, check=True).stdout.split() for _ in range(RUNS)]
    return int(found[0][0]), min(float(it[1]) for it in found)


def main() -> None:
    parser = shared.saving(shared.words(__doc__))
    parser.add_argument("netlist", metavar="NETLIST", nargs="?", help="a netlist (default: the filter)")
    parser.add_argument("params", metavar="PARAMS", nargs="?", help="its parameter list")
    parser.add_argument("k", metavar="K", nargs="?", choices="23456", help="the inputs of a LUT")
    given = parser.parse_args()
    if given.netlist and not given.k:
        parser.error("NETLIST needs PARAMS and K")
    with tempfile.TemporaryDirectory() as room:
        netlist, params, k = (given.netlist, given.params, given.k) if given.netlist else (*designs.write(room)["filter"], "6")
        ran = tools.run([f"{TOP}/tlut", "map", k, os.path.abspath(netlist), os.path.abspath(params), f"{room}/template.blif", f"{room}/bits.ppc"])
        if ran.returncode:
            raise Fault(ran.stderr.strip())
        pack = read_pack(f"{room}/bits.ppc")
        turned = drawn(len(pack.parameters))
        writes, loop, nodes = by_loop(pack, turned, room)
        ours, bits = by_bits(pack, turned, room)
        others, host = by_library(turned, room)
    if not ours == others == writes:
        raise Fault(f"the loop finds {writes} writes, bits {ours}, and the library {others}")
    print(f"{len(pack.parameters)} parameters, {len(pack.nodes)} nodes, {len(pack.bits)} bits; a parameter reaches {nodes:.0f} nodes on average")
    print(f"{writes / len(turned):.1f} writes a change: the loop {1e6 * loop:.2f} us, tlut bits {1e6 * bits:.2f} us, ratio {bits / loop:.2f}, the library {1e6 * host:.2f} us, ratio {host / loop:.2f}")
    sizes = {"parameters": len(pack.parameters), "nodes": len(pack.nodes), "bits": len(pack.bits), "reached": round(nodes), "writes": round(writes / len(turned))}
    shared.save(given.json, {**sizes, **{f"{name}_us": round(1e6 * took, 1) for name, took in (("loop", loop), ("bits", bits), ("library", host))}})


if __name__ == "__main__":
    main()
