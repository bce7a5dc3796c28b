"""The other programs: where they are found, and how they are run."""

from __future__ import annotations

import math
import os
import re
import shutil
import signal
import subprocess
import sys
import tempfile
import threading
import time
from dataclasses import dataclass
from typing import IO, Optional

from tlutflow.faults import Fault, Undecided
from tlutflow.processes import PROGRAMS, end, kill

TOP = os.path.dirname(os.path.dirname(os.path.realpath(__file__)))
YOSYS = ("yosys",)
ABC = ("yosys-abc", "berkeley-abc", "abc")
DOT = ("dot",)
ICARUS = ("iverilog",)
ICARUS_PLAYER = ("vvp",)
VERILATOR = ("verilator",)
NEXTPNR_ICE40 = ("nextpnr-ice40",)
NEXTPNR_ECP5 = ("nextpnr-ecp5",)
ICEPACK = ("icepack",)
# What each is called in a message, and where it comes from.
TITLES = {
    YOSYS: "Yosys (yosys)",
    ABC: "ABC (yosys-abc or berkeley-abc)",
    DOT: "Graphviz (dot)",
    ICARUS: "Icarus Verilog (iverilog)",
    ICARUS_PLAYER: "Icarus Verilog (vvp)",
    VERILATOR: "Verilator (verilator)",
    NEXTPNR_ICE40: "nextpnr (nextpnr-ice40)",
    NEXTPNR_ECP5: "nextpnr (nextpnr-ecp5)",
    ICEPACK: "IceStorm (icepack)",
}
# What a report says of each program: its title, its names, and the arguments by which it prints its version.
VERSIONS = (("Yosys", YOSYS, ["-V"]), ("ABC", ABC, ["-q", "version"]), ("Graphviz", DOT, ["-V"]), ("Icarus Verilog", ICARUS, ["-V"]))
# Runs a command with a limit in seconds, and how it ends where the limit is reached: by SIGXCPU or by SIGKILL.
LIMITED = ["sh", "-c", 'ulimit -t "$1" || exit 1; shift; exec "$@"', "sh"]
STOPPED = (-24, -9)
# Seconds after which a program isn't waited for that is to print its version.
LONGEST_VERSION = 20.0
# Where the wrapper has the program, in the repository and where it is installed.
BUILT = ("crates/tlut/out/tlut", "program/tlut")


def find(names: tuple[str, ...]) -> Optional[str]:
    """The path of the first of these programs that is there, or None."""
    for name in names:
        path = shutil.which(name)
        if path:
            return os.path.abspath(path)
    return None


def need(names: tuple[str, ...], purpose: str) -> str:
    """The path of a program. A fault if it isn't installed."""
    path = find(names)
    if path is None:
        raise Fault(f"{TITLES[names]} isn't on the PATH, and {purpose} needs it")
    return path


def run(
    words: list[str],
    folder: Optional[str] = None,
    seconds: Optional[float] = None,
    given: str = "",
    variables: Optional[dict[str, str]] = None,
) -> subprocess.CompletedProcess[str]:
    """Runs a program to its end with a text on its standard input, and returns its status and what it printed on its outputs, as text.
    After a limit in seconds it is stopped with what it has called, and nothing is known."""
    pipe = subprocess.PIPE
    how = {"cwd": folder, "stdin": pipe, "stdout": pipe, "stderr": pipe, "text": True, "errors": "surrogateescape", "env": variables}
    process = PROGRAMS.start(words, seconds is not None, **how)
    with process:
        try:
            told, said = process.communicate(given, seconds)
        except BaseException as ended:
            end(process)
            if isinstance(ended, subprocess.TimeoutExpired):
                raise Undecided(late(words, seconds or 0)) from None
            raise
        finally:
            PROGRAMS.ended(process)
    return subprocess.CompletedProcess(words, process.returncode, told, said)


def late(words: list[str], seconds: float) -> str:
    """What is said of a program that takes longer than a limit."""
    return f"{os.path.basename(words[0])} was stopped after {seconds:g} seconds"


@dataclass(frozen=True)
class AbcRun:
    """A run of ABC: its status, what it printed, and the seconds that it took by the processor and by the clock."""

    status: int
    told: str
    processor: float
    seconds: float


def run_abc(abc: str, commands: str, folder: str, seconds: float) -> AbcRun:
    """Runs ABC. Its processor time is limited, so that other work on the machine doesn't change what is found; by the clock it may take
    many times as long."""
    begun = time.monotonic()
    with tempfile.TemporaryFile() as out, tempfile.TemporaryFile() as err:
        words = [*LIMITED, str(limit_of(seconds)), abc, "-q", commands]
        status, processor = measured(words, folder, 60 + 20 * seconds, out, err)
        told = "".join(text_of(file) for file in (out, err))
    if status in STOPPED and processor > limit_of(seconds) - 1:
        raise Undecided(stopped(seconds))
    return AbcRun(status, told, processor, time.monotonic() - begun)


def abc_failure(ran: AbcRun) -> Fault:
    """Why a run of ABC failed: its status, if it isn't 0, and its last line that speaks of an error, or else its last line."""
    lines = [line.strip() for line in ran.told.splitlines() if line.strip()] or ["it printed nothing"]
    last = ([line for line in lines if re.search("error|assert", line, re.IGNORECASE)] or lines)[-1]
    return Fault(f"ABC ended with status {ran.status}: {last}" if ran.status else f"ABC: {last}")


def limit_of(seconds: float) -> int:
    """A limit of processor time in whole seconds, as the shell takes it."""
    return max(1, math.ceil(seconds))


def stopped(seconds: float) -> str:
    """What is said of ABC when it takes longer than a limit of processor time."""
    return f"ABC was stopped after {limit_of(seconds)} seconds of processor time"


def measured(words: list[str], folder: str, seconds: float, out: IO[bytes], err: IO[bytes]) -> tuple[int, float]:
    """Runs a program to its end, its outputs into files, and returns its status and the processor time that it took."""
    is_late = threading.Event()
    process = PROGRAMS.start(words, True, cwd=folder, stdin=subprocess.DEVNULL, stdout=out, stderr=err)

    def stop() -> None:
        is_late.set()
        kill(process, signal.SIGKILL)

    timer = threading.Timer(seconds, stop)
    timer.daemon = True
    timer.start()
    try:
        _, status, usage = os.wait4(process.pid, 0)
        process.returncode = os.waitstatus_to_exitcode(status)
    except BaseException:
        kill(process, signal.SIGKILL)
        process.wait()
        raise
    finally:
        timer.cancel()
        PROGRAMS.ended(process)
    if is_late.is_set():
        raise Undecided(late(words, seconds))
    return process.returncode, usage.ru_utime + usage.ru_stime


def text_of(file: IO[bytes]) -> str:
    """The text of a file that a program wrote."""
    file.seek(0)
    return file.read().decode(errors="surrogateescape")


def tlut(given: Optional[str]) -> str:
    """The path of `tlut`: the one that was given, that of the variable TLUT, or the one beside the companion."""
    path = given or os.environ.get("TLUT") or (f"{TOP}/tlut" if os.path.exists(f"{TOP}/tlut") else "tlut")
    found = shutil.which(path)
    if found is None:
        raise Fault(f"{path}: no such program; name tlut by --tlut or the environment variable TLUT")
    if path == f"{TOP}/tlut" and not any(os.path.exists(f"{TOP}/{built}") for built in BUILT):
        raise Fault(f"{path} isn't built yet: its first call builds it, which takes a while, and reports its progress")
    return os.path.abspath(found)


def yosys_file(name: str) -> str:
    """The path of one of Yosys's own files, whose name begins with `+/`."""
    return os.path.realpath(f"{os.path.dirname(need(YOSYS, name))}/../share/yosys/{name[2:]}")


def versions(program: str) -> dict[str, str]:
    """The version line of each program. Programs that aren't installed are left out."""
    found = {"tlut": first_line([program, "--version"]), "Python": sys.version.split()[0]}
    for title, names, words in VERSIONS:
        path = find(names)
        if path:
            found[title] = first_line([path, *words])
    return found


def first_line(words: list[str]) -> str:
    """The first line that a program prints. The program without its wrapper has no version, and prints its usage."""
    try:
        ran = run(words, seconds=LONGEST_VERSION)
    except Fault:
        return "unknown"
    lines = [line.strip() for line in (ran.stdout + ran.stderr).splitlines() if line.strip()]
    return lines[0] if lines and not lines[0].startswith("tlut: usage:") else "unknown"
