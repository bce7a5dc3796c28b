"""What a user chose, as values that nothing changes. A command makes them from its arguments."""

from __future__ import annotations

from dataclasses import dataclass
from typing import Optional

from tlutflow.devices.families import FAMILIES, Family
from tlutflow.faults import Fault
from tlutflow.stages.runs import View
from tlutflow.verilog.hdl import Way

VERILOG = (".v", ".sv", ".vh")


@dataclass(frozen=True)
class DesignOptions:
    """A design: its files; and for one in Verilog the module to take, PORT=VALUE of its parameters, NAME=VALUE of the module's own, macros,
    folders of included files, files of cells, the reader, and whether each module is synthesised once."""

    files: tuple[str, ...]
    top: str = ""
    parameters: tuple[str, ...] = ()
    settings: tuple[str, ...] = ()
    defines: tuple[str, ...] = ()
    includes: tuple[str, ...] = ()
    cells: tuple[str, ...] = ()
    reader: str = "verilog"
    by_modules: bool = False

    @property
    def is_verilog(self) -> bool:
        """Whether its files are in Verilog."""
        return self.files[0].endswith(VERILOG)


@dataclass(frozen=True)
class PrepareOptions:
    """How a netlist is prepared: K, or the values of K among which the count of a device chooses; the aim, the rule and the device; one
    preparation (`quick`, or commands of ABC), or those that are tried, in rounds; the limits of a program in seconds and of programs at a
    time; the path of `tlut`, and what lines on stderr begin with."""

    k: int
    ks: tuple[int, ...] = ()
    aim: str = "depth"
    rule: Optional[str] = None
    device: Optional[str] = None
    quick: bool = False
    abc: Optional[str] = None
    further: tuple[str, ...] = ()
    only: tuple[str, ...] = ()
    rounds: int = 1
    seconds: float = 60
    jobs: int = 0
    program: Optional[str] = None
    prog: str = "flow"

    def __post_init__(self) -> None:
        """Refuses limits that nothing could be done in."""
        if self.seconds <= 0 or self.jobs < 0:
            raise Fault("--seconds is more than 0, and -j at least 1")

    @property
    def family(self) -> Optional[Family]:
        """The family of devices that was named."""
        return FAMILIES[self.device] if self.device else None

    @property
    def is_quick(self) -> bool:
        """Whether one preparation is taken without measuring."""
        return self.quick or self.abc is not None


@dataclass(frozen=True)
class BuildOptions:
    """A build: its design and folder, how the netlist is prepared, how bits are kept and changed and which of them an option chose, the script
    that is run and how the run is shown, and whether everything is made again."""

    design: DesignOptions
    folder: str
    preparing: PrepareOptions
    way: Way = Way()
    bits: Optional[str] = None
    script: Optional[str] = None
    view: View = View()
    again: bool = False
