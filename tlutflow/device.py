"""The recipe by which a netlist of fixed LUTs, as `tlut spec` writes it, goes to a device: each LUT becomes one of the device's."""

from __future__ import annotations

from dataclasses import dataclass

from tlutflow import tools
from tlutflow.verilog.recipe import Step, quoted

# How many inputs a LUT of each device has at most. An ECP5 joins two or four of four inputs by its multiplexers.
WIDEST = {"ice40": 4, "ecp5": 6, "xilinx": 6}


@dataclass(frozen=True)
class Placer:
    """The program that places and routes for a device: its names, its arguments after the netlist's, and the ending of its output file."""

    names: tuple[str, ...]
    words: tuple[str, ...]
    out: str
    end: str


PLACERS = {
    "ice40": Placer(tools.NEXTPNR_ICE40, ("--pcf-allow-unconstrained",), "--asc", ".asc"),
    "ecp5": Placer(tools.NEXTPNR_ECP5, ("--lpf-allow-unconstrained",), "--textcfg", ".config"),
}
# The device where no words for the placer are given.
PART = {"ice40": ("--hx1k", "--package", "tq144"), "ecp5": ("--25k", "--package", "CABGA381")}


def cell_steps(target: str) -> list[Step]:
    """The steps from LUTs and flip-flops to a device's cells."""
    if target == "ice40":
        return [
            Step("dfflegalize -cell $_DFF_P_ 0", "a flip-flop starts at 0: one that starts at 1 gets an inverter before and after it"),
            Step("techmap -map +/gate2lut.v -D LUT_WIDTH=1 t:$_NOT_", "these inverters are LUTs too"),
            Step("opt_lut", "an inverter is merged into the LUT before or after it if no other cell reads the net between"),
            Step("techmap -map +/ice40/cells_map.v t:$lut", "SB_LUT4"),
            Step("techmap -map +/ice40/ff_map.v", "SB_DFF"),
        ]
    if target == "ecp5":
        return [
            Step("dfflegalize -cell $_DFF_P_ 01", "a flip-flop starts at 0 or at 1"),
            Step("techmap -map +/ecp5/cells_map.v", "LUT4 and TRELLIS_FF; the device's multiplexers join LUTs of five or six inputs"),
        ]
    return [
        Step("dfflegalize -cell $_DFFE_?P?P_ 01 -cell $_SDFFE_?P?P_ 01", "a flip-flop starts at 0 or at 1, and has an enable and a reset"),
        Step("techmap -map +/xilinx/lut_map.v -D LUT_WIDTH=6 t:$lut", "LUT1 to LUT6"),
        Step("techmap -map +/xilinx/ff_map.v", "FDRE"),
    ]


def device_recipe(netlist: str, target: str, base: str) -> list[Step]:
    """The steps from a netlist's file to the files of a device's tools, which begin with `base`."""
    library = {"ice40": "+/ice40/cells_sim.v", "ecp5": "+/ecp5/cells_sim.v +/ecp5/cells_bb.v", "xilinx": "+/xilinx/cells_sim.v"}[target]
    writes = [Step(f"write_edif -pvector bra {quoted(base + '.edif')}", "the netlist for the vendor's tools")] if target == "xilinx" else []
    return [
        Step(f"read_verilog -lib {library}", "the device's cells"),
        Step(f"read_blif {quoted(netlist)}", "each LUT is one $lut"),
        Step("simplemap t:$dff", "flip-flops become gate cells; the LUTs are unchanged"),
        *cell_steps(target),
        Step("opt_clean", "nets that nothing reads are removed"),
        Step("check -assert", "each net has one driver"),
        Step("stat", "the cells are counted"),
        Step("blackbox =A:whitebox", "the insides of the device's cells aren't written"),
        Step(f"write_json {quoted(base + '.json')}", "the netlist for nextpnr"),
        *writes,
    ]
