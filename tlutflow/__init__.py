"""What a designer needs around the mapper `tlut`; the executable `flow` runs it.

`commands/` has a module for each subcommand. What is beside it is what they share: `stages/`, the work of subcommands that a build does
too, `verilog/`, `runs/`, `preparing/`, `reports/` and `devices/`, and modules for the readers of netlists and packs, the mapped circuit,
the host, and the other programs that are called. Nothing but the standard library is imported. `api` is the interface for other Python
programs, whose names can be imported from the package.
"""

from __future__ import annotations

from typing import Any

INTERFACE = ("Fault", "Library", "Mapping", "Pack", "build", "prepare", "read_netlist", "read_pack")


def __getattr__(name: str) -> Any:
    """A name of the interface, which is read when it is first used, so that a call of `flow` doesn't wait for it."""
    if name not in INTERFACE:
        raise AttributeError(f"module {__name__!r} has no attribute {name!r}")
    from importlib import import_module

    return getattr(import_module(f"{__name__}.api"), name)
