"""Options of a subcommand from values of a Python program, without a command line."""

from __future__ import annotations

import argparse
import os
from typing import Any, Mapping

from tlutflow.faults import Fault


def given_of(subcommand: str, parser: argparse.ArgumentParser, values: Mapping[str, Any]) -> argparse.Namespace:
    """The arguments of a subcommand with these values, by the names of its options, and with its defaults."""
    options = named_options(parser)
    unknown = [name for name in values if name not in options]
    if unknown:
        raise Fault(f"{unknown[0]} is no option of {subcommand}; the options are {', '.join(sorted(options))}")
    taken = {options[name].dest: value_of(name, options[name], value) for name, value in values.items() if value is not None}
    missing = [name for name, it in options.items() if it.required and it.dest not in taken]
    if missing:
        raise Fault(f"{missing[0]} is missing: {subcommand} needs it")
    defaults = {it.dest: it.default for it in parser._actions if it.dest != "help"}
    return argparse.Namespace(**{**defaults, **parser._defaults, **taken})


def named_options(parser: argparse.ArgumentParser) -> dict[str, argparse.Action]:
    """The options by their names in Python: that of the value, and the long one of the command line."""
    options: dict[str, argparse.Action] = {}
    for action in parser._actions:
        if action.dest != "help":
            long = [word[2:].replace("-", "_") for word in action.option_strings if word.startswith("--")]
            options.update({name: action for name in (action.dest, *long)})
    return options


def value_of(name: str, option: argparse.Action, value: Any) -> Any:
    """A value as the subcommand has it; a fault if the option can't have it."""
    value = os.fspath(value) if isinstance(value, os.PathLike) else value
    if isinstance(option.default, bool):
        return kept(name, value, bool, "True or False")
    if isinstance(option.default, list) or option.nargs in ("*", "+"):
        return words_of(name, value)
    if option.type is int:
        kept(name, value, int, "an integer")
    elif option.type is float:
        kept(name, value, (int, float), "a number")
    else:
        kept(name, value, str, "a string")
        value = option.type(value) if callable(option.type) else value
    if option.choices is not None and value not in option.choices:
        raise Fault(f"{name} is {value!r}: it is one of {', '.join(map(str, option.choices))}")
    return value


def kept(name: str, value: Any, kinds: Any, shown: str) -> Any:
    """A value of one of these types."""
    if not isinstance(value, kinds) or (isinstance(value, bool) and kinds is not bool):
        raise Fault(f"{name} is {value!r}: it is {shown}")
    return value


def words_of(name: str, value: Any) -> list[str]:
    """The words of an option that can be repeated: a string, several, or names with their values."""
    if isinstance(value, str):
        return [value]
    if isinstance(value, Mapping):
        return [str(key) if it is None else f"{key}={it}" for key, it in value.items()]
    if isinstance(value, (list, tuple)) and all(isinstance(it, (str, os.PathLike)) for it in value):
        return list(map(os.fspath, value))
    raise Fault(f"{name} is {value!r}: it is a string, several, or a mapping of names to values")
