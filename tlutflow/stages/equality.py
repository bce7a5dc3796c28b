"""A netlist that `tlut` wrote, compared with its source by ABC."""

from __future__ import annotations

from dataclasses import dataclass
from typing import Optional

from tlutflow import tools
from tlutflow.abc_form import abc_text, with_functions
from tlutflow.faults import Fault, Undecided
from tlutflow.netlist import Library, parse_library, read_library
from tlutflow.pack import read_pack
from tlutflow.parameters import read_parameters
from tlutflow.plain_names import temporary_folder
from tlutflow.preparing.combinational import logic_of, logic_text
from tlutflow.preparing.flat import flat_model
from tlutflow.text import count, write_text


@dataclass(frozen=True)
class Pair:
    """What is compared: a source and a written netlist, and the parameter list of `spec` or the pack of `map`."""

    source: str
    written: str
    params: Optional[str] = None
    pack: Optional[str] = None

    @property
    def files(self) -> list[str]:
        """The files that are read."""
        return [self.source, self.written, *filter(None, (self.params, self.pack))]

    @property
    def words(self) -> list[str]:
        """The call of `flow` that compares them."""
        options = {"--params": self.params, "--pack": self.pack}
        return ["check", self.source, self.written, *(word for option, file in options.items() if file for word in (option, file))]


def fixed_inputs(source: Library, there: list[str], values: dict[str, int]) -> dict[str, int]:
    """The inputs of the source that the other netlist doesn't have, with their values. A clock net that is gone is 0."""
    fixed = {}
    for name in source.main.all_inputs():
        if name not in there:
            if name not in values and name not in source.clock_nets():
                raise Fault(f"{name} is an input of {source.file} but not of the written netlist: say by --params or --pack what it is there")
            fixed[name] = values.get(name, 0)
    return fixed


def texts(given: Pair) -> tuple[Library, str, str]:
    """The source, its text for ABC, and that of the written netlist."""
    source, written = read_library(given.source), read_library(given.written)
    values = read_parameters(given.params) if given.params else {}
    there = written.main.all_inputs()
    if given.pack:
        pack = read_pack(given.pack)
        there += list(pack.parameters)
        other = with_functions(written, pack, given.pack)
    else:
        other = abc_text(written, {})
    return source, abc_text(source, fixed_inputs(source, there, values)), other


def verdict(told: str) -> str:
    """What ABC says."""
    if "are equivalent" in told:
        return "equal"
    if "NOT EQUIVALENT" in told:
        return "different"
    return "open"


def extent(given: Pair) -> str:
    """For which values of the parameters the netlists were compared."""
    if given.pack:
        return f" under all values of {count(len(read_pack(given.pack).parameters), 'parameter')}"
    return " under the listed values" if given.params else ""


def compare(given: Pair, seconds: float) -> str:
    """Compares two netlists by ABC, and says that they are equal. A fault if they differ or ABC fails, and Undecided if it decides nothing. With
    latches their logic is compared first, each latch with the one at its place: where that is equal, so are the netlists."""
    abc = tools.need(tools.ABC, "a comparison of netlists")
    source, left, right = texts(given)
    logic = logic_texts(left, right) if source.flat_latches() else None
    if logic is not None:
        try:
            outcome, _ = verdict_of(abc, "cec", *logic, seconds)
        except Undecided:
            outcome = "open"
        if outcome == "equal":
            return f"equal{extent(given)} (ABC cec, latch by latch)"
    method = "dsec" if source.flat_latches() else "cec"
    outcome, told = verdict_of(abc, method, left, right, seconds)
    if outcome == "different":
        raise Fault(f"{given.written} differs from {given.source} (ABC {method}): {told}")
    if outcome == "open":
        raise Undecided(f"ABC {method} didn't decide it: {told}")
    return f"equal{extent(given)} (ABC {method})"


def verdict_of(abc: str, method: str, left: str, right: str, seconds: float) -> tuple[str, str]:
    """What a command of ABC says of two netlists, and its last line."""
    with temporary_folder() as folder:
        write_text(f"{folder}/source.blif", left)
        write_text(f"{folder}/written.blif", right)
        ran = tools.run_abc(abc, f"{method} source.blif written.blif", folder, seconds)
    if ran.status:
        raise tools.abc_failure(ran)
    told = [line.strip() for line in ran.told.splitlines() if line.strip()] or ["it printed nothing"]
    return verdict("\n".join(told)), told[-1]


def logic_texts(left: str, right: str) -> Optional[tuple[str, str]]:
    """The outputs and next states of two netlists as functions of inputs and states, latches in their order; None if they haven't as many, or these
    start otherwise."""
    source, written = (flat_model(parse_library(text, name)) for text, name in ((left, "the source"), (right, "the written netlist")))
    inputs = [it for it in logic_of(source).inputs if it not in {latch.state for latch in source.latches}]
    missing = set(inputs) - {*written.all_inputs()}
    if missing or [it.start for it in source.latches] != [it.start for it in written.latches] or source.outputs != written.outputs:
        return None
    one, other = (logic_text(it, [*inputs, *(latch.state for latch in it.latches)], [*it.outputs, *(latch.source for latch in it.latches)]) for it in (source, written))
    return one, other
