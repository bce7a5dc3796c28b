"""The cells of a netlist that Yosys synthesised for a device: LUTs, carries, flip-flops, and the LUT sites of a Xilinx device."""

from __future__ import annotations

import json
import re
from dataclasses import dataclass
from typing import Any

from tlutflow.faults import Fault
from tlutflow.devices.sites import FIXED_PAIR, Node, order_of, pairs_of
from tlutflow.text import read_text

LUTS = re.compile(r"LUT[1-6](_2)?|INV|CFGLUT5|SRL\w+|SB_LUT4|LUT4|\$lut")
CARRIES = re.compile(r"CARRY4|SB_CARRY|CCU2C|\$alu")
FLIP_FLOPS = re.compile(r"FD[RSCP]E(_1)?|SB_DFF\w*|TRELLIS_FF|\$_\w*DFF\w*_")
# LUTs of one output and of no memory, of which two may share a site.
PLAIN = re.compile(r"LUT[1-6]|INV")
# What the outputs of a cell with memory depend on within a cycle.
READS = {"CFGLUT5": re.compile(r"I\d"), "SRLC32E": re.compile(r"A"), "SRL16E": re.compile(r"A\d")}
DRIVES = {"CFGLUT5": re.compile(r"O\d"), "SRLC32E": re.compile(r"Q"), "SRL16E": re.compile(r"Q")}
EVERY = re.compile(r".*")


@dataclass(frozen=True)
class Cells:
    """What a netlist has: LUTs as Yosys counts them, the LUT sites once two share one if they may, carries, flip-flops, CFGLUT5, and LUTs
    on the critical path."""

    luts: int
    sites: int
    carries: int
    flip_flops: int
    rewritable: int
    depth: int

    def row(self) -> list[int]:
        """The numbers of a row."""
        return [self.luts, self.sites, self.carries, self.flip_flops, self.rewritable, self.depth]


def read_cells(path: str, top: str) -> list[dict[str, Any]]:
    """The cells of a module in a JSON file of Yosys."""
    try:
        cells: dict[str, dict[str, Any]] = json.loads(read_text(path))["modules"][top]["cells"]
    except (KeyError, ValueError):
        raise Fault(f"{path}: Yosys wrote no module {top}") from None
    return list(cells.values())


def bits_of(cell: dict[str, Any], direction: str, wanted: re.Pattern[str]) -> list[str]:
    """The nets of some ports of a cell, constants left out."""
    ports = [port for port, way in cell["port_directions"].items() if way == direction and wanted.fullmatch(port)]
    return [str(bit) for port in ports for bit in cell["connections"].get(port, []) if isinstance(bit, int)]


def node_of(cell: dict[str, Any]) -> Node:
    """A combinational cell for the pairing of sites."""
    kind = cell["type"]
    reads = frozenset(bits_of(cell, "input", READS.get(kind, EVERY)))
    most = FIXED_PAIR if PLAIN.fullmatch(kind) and len(reads) <= FIXED_PAIR else 0
    return Node(reads, tuple(bits_of(cell, "output", DRIVES.get(kind, EVERY))), most)


def depth_of(nodes: list[Node], luts: list[bool]) -> int:
    """How many LUTs are on the critical path; carries and multiplexers count as none."""
    driver = {net: place for place, node in enumerate(nodes) for net in node.drives}
    depths = [0] * len(nodes)
    for place in order_of(nodes, driver):
        deepest = max((depths[driver[net]] for net in nodes[place].reads if net in driver), default=0)
        depths[place] = deepest + luts[place]
    return max(depths, default=0)


def counted(cells: list[dict[str, Any]], is_paired: bool) -> Cells:
    """The counts of a netlist; with `is_paired` two LUTs share a site where they may."""
    kinds = [str(cell["type"]) for cell in cells]
    able = [cell for cell, kind in zip(cells, kinds) if not FLIP_FLOPS.fullmatch(kind)]
    nodes, luts = [node_of(cell) for cell in able], [bool(LUTS.fullmatch(cell["type"])) for cell in able]
    return Cells(
        sum(luts),
        sum(luts) - (len(pairs_of(nodes, False)) if is_paired else 0),
        sum(bool(CARRIES.fullmatch(kind)) for kind in kinds),
        sum(bool(FLIP_FLOPS.fullmatch(kind)) for kind in kinds),
        kinds.count("CFGLUT5"),
        depth_of(nodes, luts),
    )
