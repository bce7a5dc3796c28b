"""Man pages from the help texts of the program and of its companion."""

from __future__ import annotations

import os
import sys

from shared import TOP


def escaped(line: str) -> str:
    """A line as the language of man pages has it."""
    line = line.replace("\\", "\\e").replace("-", "\\-")
    return f"\\&{line}" if line.startswith((".", "'")) else line


def head(name: str, version: str, about: str) -> list[str]:
    """The first lines of a page."""
    return [f'.TH {name.upper()} 1 "" "{version}"', ".SH NAME", f"{escaped(name)} \\- {about}"]


def man_page(text: str, version: str) -> str:
    """The page with the sections of a help text: lines in capitals begin one."""
    first, rest = text.split("\n\n", 1)
    lines = head("tlut", version, "map netlists to lookup tables with tunable configuration bits")
    lines += [".SH SYNOPSIS", "tlut COMMAND ARGUMENT ..", ".SH DESCRIPTION", *map(escaped, first.splitlines()), ".nf"]
    for line in rest.replace("\n\n", "\n").splitlines():
        lines += [".fi", f".SH {line}", ".nf"] if line.isupper() and not line.startswith(" ") else [escaped(line[2:])]
    return "\n".join([*lines, ".fi", ""])


def companion_page(version: str) -> str:
    """The page of the companion, from the help of its subcommands, as wide as a page is."""
    sys.path.insert(0, TOP)
    sys.argv[0], os.environ["COLUMNS"] = "tlut-flow", "80"
    from tlutflow.commands.complete import subcommands_of
    from tlutflow.main import parser

    words = parser()
    lines = head("tlut-flow", version, "from a design in Verilog to tunable lookup tables, around tlut")
    lines += [".SH SYNOPSIS", "tlut\\-flow SUBCOMMAND ..", ".SH DESCRIPTION", *map(escaped, f"{words.description}\n{words.epilog}".splitlines())]
    for name, own in subcommands_of(words).items():
        lines += [f".SH {name.upper()}", ".nf", *map(escaped, own.format_help().splitlines()), ".fi"]
    return "\n".join([*lines, ".SH SEE ALSO", "tlut(1)", ""])


def pages(version: str) -> dict[str, str]:
    """All pages, by the names of their files."""
    with open(f"{TOP}/tools/help.txt", encoding="utf-8") as help_text:
        first = man_page(help_text.read(), version)
    return {"tlut.1": first, "tlut-compact.1": ".so man1/tlut.1\n", "tlut-flow.1": companion_page(version)}


def completion() -> str:
    """The completion of the companion in bash."""
    sys.path.insert(0, TOP)
    from tlutflow.commands.complete import script, subcommands_of
    from tlutflow.main import parser

    return script(subcommands_of(parser()))
