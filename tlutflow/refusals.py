"""Why `tlut` refused something, in one line with the cause and the remedy."""

from __future__ import annotations

import subprocess
from dataclasses import replace
from typing import Mapping, Optional, Sequence

from tlutflow.explanations import BY_CODE, BY_WORD, CELLS, Explanation
from tlutflow.fault_line import FaultLine, parse_fault
from tlutflow.faults import Fault


def explanation_of(fault: FaultLine) -> Optional[Explanation]:
    """What is known of a fault, or None."""
    known = BY_CODE.get(fault.code) or BY_WORD.get(fault.word)
    if known is None:
        return None
    if fault.code == "F1":
        for beginnings, cause, remedy in CELLS:
            if fault.names.startswith(beginnings):
                return Explanation(known.wants, f"{fault.names} is a cell of Yosys: {cause}", remedy)
    return known


def head_of(fault: FaultLine) -> str:
    """What a fault line says, without the program's name."""
    words = f"{fault.code} {fault.word} {fault.details}".strip() if fault.code else fault.word
    return f"{fault.file}: {words}" if fault.file else words


def refusal(line: str, shown: Optional[Mapping[str, str]] = None, written: Sequence[str] = ()) -> Fault:
    """The fault of a line that `tlut` printed, with its explanation. `shown` has what files are called instead of their paths, and `written`
    the files that the call wrote, which a line on a failed write doesn't name."""
    for path, name in (shown or {}).items():
        line = line.replace(path, name)
    fault = parse_fault(line)
    if fault and fault.word == "write failed" and written:
        fault = replace(fault, file=" or ".join(written))
    known = explanation_of(fault) if fault else None
    if fault is None or known is None:
        return Fault(line)
    return Fault(f"{head_of(fault)}; wanted: {known.wants}; usual cause: {known.cause}; remedy: {known.remedy}")


def refusal_of(ran: subprocess.CompletedProcess[str], shown: Optional[Mapping[str, str]] = None, written: Sequence[str] = ()) -> Fault:
    """The fault of a call of `tlut` that failed."""
    lines = ran.stderr.strip().splitlines()
    return refusal(lines[-1], shown, written) if lines else Fault(f"tlut ended with status {ran.returncode}")
