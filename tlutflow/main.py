"""The command line: the choice of a subcommand, its help, and how a fault is shown."""

from __future__ import annotations

import argparse
import io
import os
import sys
import tempfile
import traceback
from types import ModuleType
from typing import Any, NoReturn, Optional

from tlutflow.commands import bits, build, check, compare, complete, device, draw, explain, hdl, params, prepare, report, script, show, stream, verilog, wave
from tlutflow.faults import Fault
from tlutflow.processes import stoppable

COMMANDS: list[ModuleType] = [build, verilog, prepare, params, script, show, report, draw, wave, hdl, stream, device, check, compare, bits, explain, complete]

HEAD = """The companion of the mapper tlut: from a design in Verilog to a netlist, values of buses in and out, and views of the mapped circuit.
Each subcommand has its own --help."""

TAIL = """NETLIST, PARAMS and SCRIPT are files as tlut reads them, OUTPUT is what it prints, and TEMPLATE and PACK are what `tlut map` writes.
The exit status is 0 on success, 1 on failure, with one line on stderr, and 2 for a usage error."""


def version() -> str:
    """The number of the version, which the program, the companion and the library have in common."""
    with open(os.path.join(os.path.dirname(os.path.abspath(__file__)), "VERSION"), encoding="utf-8") as file:
        return file.read().strip()


class Parser(argparse.ArgumentParser):
    """An argument parser that reports a usage error in one line."""

    def error(self, message: str) -> NoReturn:
        self.exit(2, f"{self.prog}: {message}; see {self.prog} --help\n")


class Subcommand(Parser):
    """The parser of a subcommand, whose options may be among its files and values."""

    is_within = False

    def parse_known_args(self, args: Any = None, namespace: Any = None) -> Any:
        """Parses options first and then what is left, in any order. The call within comes back here."""
        if self.is_within:
            return super().parse_known_args(args, namespace)
        self.is_within = True
        try:
            found, others = self.parse_known_intermixed_args(args, namespace)
        finally:
            self.is_within = False
        if others:
            unknown = [it for it in others if it.startswith("-")] or others
            self.error(f"unrecognized arguments: {' '.join(unknown)}")
        return found, others


def parser() -> argparse.ArgumentParser:
    """The parser of all arguments."""
    name = os.path.basename(sys.argv[0])
    prog = name if name.startswith(("flow", "tlut")) else "flow"
    words = Parser(prog=prog, description=HEAD, epilog=TAIL)
    subcommands = words.add_subparsers(title="subcommands", metavar="SUBCOMMAND", required=True, parser_class=Subcommand)
    for module in COMMANDS:
        own = subcommands.add_parser(
            module.__name__.rsplit(".", 1)[-1],
            help=module.HELP,
            description=module.DESCRIPTION,
            epilog=module.EXAMPLE,
            formatter_class=argparse.RawDescriptionHelpFormatter,
        )
        module.add_words(own)
        own.set_defaults(run=module.run, prog=own.prog)
    words.add_argument("--version", action="version", version=f"{prog} {version()}", help="print the version and exit")
    return words


def printable(text: str) -> str:
    """A text in one line without control characters, which names of files may have."""
    return "".join(it if it.isprintable() or "\ud800" <= it <= "\udfff" else it.encode("unicode_escape").decode() for it in text)


def main(words: Optional[list[str]] = None) -> int:
    """Runs a call, and returns its status."""
    for stream in (sys.stdout, sys.stderr):
        if isinstance(stream, io.TextIOWrapper):
            stream.reconfigure(encoding="utf-8", errors="surrogateescape")
    prog = "flow"
    try:
        given = parser().parse_args(words)
        prog = given.prog
        with stoppable():
            status = int(given.run(given))
        sys.stdout.flush()
        return status
    except BrokenPipeError:
        # Whoever read the output is gone; nothing more is put, at the end of Python neither.
        os.dup2(os.open(os.devnull, os.O_WRONLY), sys.stdout.fileno())
    except KeyboardInterrupt:
        print(f"{prog}: stopped", file=sys.stderr)
    except Exception as error:
        print(f"{prog}: {printable(line_of(error))}", file=sys.stderr)
    return 1


def line_of(error: Exception) -> str:
    """What is said of a failure."""
    if isinstance(error, Fault):
        return str(error)
    if isinstance(error, OSError) and error.strerror:
        return f"{error.filename or 'a temporary file, or the output'}: {error.strerror}"
    if isinstance(error, MemoryError):
        return "out of memory"
    name = type(error).__name__
    return f"this is a fault of flow, not of its input: {name}: {error}; {kept_trace(error)}"


def kept_trace(error: Exception) -> str:
    """Writes the way to a failure into a file, and says where."""
    try:
        number, path = tempfile.mkstemp(".txt", "flow-fault-")
        with open(number, "w", encoding="utf-8", errors="surrogateescape") as file:
            file.writelines([f"flow {version()}\n", f"{sys.argv}\n", *traceback.format_exception(type(error), error, error.__traceback__)])
    except OSError as why:
        return f"its traceback can't be written: {why.strerror}"
    return f"its traceback is in {path}, which a report should have"
