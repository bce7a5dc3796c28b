"""Runs of Yosys."""

from __future__ import annotations

import os

from tlutflow import tools
from tlutflow.faults import Fault
from tlutflow.text import write_text
from tlutflow.verilog.recipe import Step, script_text


def run_yosys(steps: list[Step], folder: str, purpose: str, is_silent: bool = True) -> str:
    """Runs steps in Yosys, and returns what it printed. The script and the files that ABC needs within Yosys go into a folder, whose path is
    a plain name."""
    program, script = tools.need(tools.YOSYS, purpose), f"{folder}/recipe.ys"
    write_text(script, script_text(steps))
    ran = tools.run([program, *(["-q"] if is_silent else []), "-s", script], variables={**os.environ, "TMPDIR": folder})
    if ran.returncode:
        errors = [line for line in (ran.stdout + ran.stderr).splitlines() if "ERROR" in line]
        raise Fault(f"Yosys: {errors[-1] if errors else f'it ended with status {ran.returncode}'}")
    return ran.stdout
