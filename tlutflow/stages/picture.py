"""Pictures of a mapped circuit."""

from __future__ import annotations

import os
from typing import Optional

from tlutflow import tools
from tlutflow.circuit import Circuit
from tlutflow.faults import Fault
from tlutflow.plain_names import temporary_folder
from tlutflow.reports.drawing import drawing
from tlutflow.text import write_text

PICTURES = (".svg", ".png", ".pdf")


def draw(circuit: Circuit, path: str, cone: Optional[set[str]] = None) -> None:
    """Draws a circuit, or some of it, to a file: a picture, or a drawing in the language of Graphviz."""
    text = drawing(circuit, cone)
    if path.endswith(PICTURES):
        paint(text, path)
    else:
        write_text(path, text)


def paint(text: str, path: str) -> None:
    """Creates a picture from a drawing."""
    dot = tools.need(tools.DOT, f"a picture {os.path.splitext(path)[1]}")
    with temporary_folder() as folder:
        write_text(f"{folder}/drawing.dot", text)
        ran = tools.run([dot, f"-T{os.path.splitext(path)[1][1:]}", f"{folder}/drawing.dot", "-o", os.path.abspath(path)])
    if ran.returncode:
        raise Fault(f"Graphviz: {(ran.stderr.strip().splitlines() or ['it failed'])[0]}")
