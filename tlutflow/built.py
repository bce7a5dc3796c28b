"""What a build made, as its page shows it."""

from __future__ import annotations

from dataclasses import asdict, dataclass, field
from typing import Any, Optional

from tlutflow.preparing.trials import Found


@dataclass
class Built:
    """What the page shows, by its parts, and the files that are there."""

    name: str
    k: int
    rule: str = ""
    aim: str = ""
    preparation: dict[str, Any] = field(default_factory=dict)
    sizes: dict[str, dict[str, list[str]]] = field(default_factory=dict)
    checks: list[list[str]] = field(default_factory=list)
    changes: dict[str, list[int]] = field(default_factory=dict)
    shown: str = ""
    device: dict[str, Any] = field(default_factory=dict)
    commands: list[str] = field(default_factory=list)
    versions: dict[str, str] = field(default_factory=dict)
    files: list[list[str]] = field(default_factory=list)


def told_of(found: Optional[Found], summary: str) -> dict[str, Any]:
    """What the page shows of the choice of a preparation."""
    if found is None:
        return {"summary": summary}
    by_abc = found.best_by_abc()
    rows = [{**asdict(it), "front": it in found.front, "file": ""} for it in found.results]
    failures = [[it.name, it.failure] for it in found.failures] + [[it.name, it.parts_left_out] for it in found.trials if it.parts_left_out]
    abc = [by_abc[0], by_abc[1], *by_abc[2].cells()] if by_abc else []
    return {"summary": summary, "best": {**asdict(found.best), "file": ""}, "rows": rows, "failures": failures, "abc": abc, "tried": len(found.trials), "compared": found.best_trial.compared, **sums_of(found)}


def sums_of(found: Found) -> dict[str, Any]:
    """What the sums of the best preparation became, if they are tables."""
    sums = found.best_trial.sums
    return {"sums": sums.told} if sums else {}
