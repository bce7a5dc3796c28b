"""A netlist of fixed values on an iCE40, placed by nextpnr, as `flow device` reports it."""

from __future__ import annotations

import re
from typing import Any

from on_device.calls import FLOW, Room, must, program, room, version
from tlutflow.verilog.recipe import PREPARATION

DESIGNS = ("fir",)
FILTER = ["examples/fir/fir.v", "--top", "fir", "--param", "c0=5", "--param", "c1=3", "--param", "c2=6"]


def placed(at: Room) -> dict[str, int]:
    """The LUTs of the filter at K 4, the cells that Yosys creates for them, and the logic cells that nextpnr places."""
    must([FLOW, "verilog", "--abc", PREPARATION, *FILTER, "--out", at.folder])
    told = must([program(), "spec", "4", at.path("fir.blif"), at.path("fir.par"), at.path("spec.blif")])
    told += must([FLOW, "device", at.path("spec.blif"), "--target", "ice40", "--out", at.folder])
    patterns = {"luts": r"^luts (\d+) ", "cells": r"(\d+) SB_LUT4", "placed": r"(\d+) of \d+ ICESTORM_LC"}
    found = {what: re.search(pattern, told, re.MULTILINE) for what, pattern in patterns.items()}
    if not all(found.values()):
        raise SystemExit(f"no count is in {told}")
    return {what: int(it[1]) for what, it in found.items() if it}


def measured(name: str, folder: str) -> dict[str, Any]:
    """The same, unless it is known."""
    at = room(folder, name)
    result: dict[str, Any] = at.steps.make("placed", [version("Yosys"), version("tlut")], [FILTER[0]], [], lambda: placed(at))
    return result
