"""What the tests share: calls of `flow`, texts of the examples, and a simulator of tables."""

from __future__ import annotations

import io
import os
import signal
import subprocess
import sys
import tempfile
import unittest
from typing import Optional

from tlutflow import patience, tools
from tlutflow.circuit import Circuit, circuit_of, read_circuit
from tlutflow.main import main
from tlutflow.netlist import parse_library
from tlutflow.pack import parse_pack
from tlutflow.text import ENCODING

TOP = tools.TOP
# A busy machine is to add no line on how long something has been running.
patience.FIRST = 3600
EXAMPLES = f"{TOP}/examples"
DATA = f"{TOP}/tlutflow/tests/data"

MUX = ".model mux\n.inputs a b p\n.outputs y\n.names p a b y\n11- 1\n0-1 1\n.end\n"
# The template of docs/formats.md, and its pack in both versions.
MUX_TEMPLATE = """.model mux
.inputs a b
.inputs _c0 _c1 _c2 _c3
.outputs y
.names a b _c0 _c1 _c2 _c3 _n13
001--- 1
10-1-- 1
01--1- 1
11---1 1
.names _n13 y
1 1
.end
"""
MUX_PACK_1 = bytes.fromhex("54505043 0001 0001 0001 70 00 00000000 00000004 00000000 00000002 00000003 00000001")
MUX_PACK = bytes.fromhex("54505043 0002 01 01 70 00 00 04 00 02 03 01")


def mux() -> Circuit:
    """The mapped multiplexer."""
    return circuit_of(parse_library(MUX_TEMPLATE, "t.blif"), parse_pack(MUX_PACK, "p.ppc"), "p.ppc")


def mapped(name: str) -> Circuit:
    """A mapped example."""
    return read_circuit(f"{DATA}/{name}_t.blif", f"{DATA}/{name}.ppc")


def example(path: str) -> str:
    """The text of a file of the examples."""
    with open(f"{EXAMPLES}/{path}", encoding="utf-8") as file:
        return file.read()


def flow(*words: str, given: str = "", folder: Optional[str] = None, **variables: str) -> subprocess.CompletedProcess:
    """Runs the companion within this process, which is faster than one of its own, with other streams, folder and variables meanwhile."""
    streams, here, before = (sys.stdin, sys.stdout, sys.stderr), os.getcwd(), dict(os.environ)
    sys.stdin, sys.stdout, sys.stderr = made = [io.TextIOWrapper(io.BytesIO(text.encode(**ENCODING))) for text in (given, "", "")]
    try:
        os.chdir(folder or here)
        os.environ.update(variables)
        try:
            status = main(list(words))
        except SystemExit as ended:
            status = int(ended.code or 0)
        for stream in made[1:]:
            stream.flush()
        told = [stream.buffer.getvalue().decode(**ENCODING) for stream in made[1:]]
    finally:
        sys.stdin, sys.stdout, sys.stderr = streams
        os.chdir(here)
        for name in variables:
            os.environ.pop(name, None)
        os.environ.update(before)
    return subprocess.CompletedProcess(["flow", *words], status, *told)


def needs(*programs: tuple[str, ...]):
    """Leaves a test out where a program isn't there."""
    missing = [tools.TITLES[it] for it in programs if tools.find(it) is None]
    return unittest.skipIf(missing, f"{', '.join(missing)} isn't there")


def heed_signals() -> None:
    """Has a program that a test starts end by signals, also where the tests themselves run in the background, and so ignore some."""
    for number in (signal.SIGINT, signal.SIGHUP):
        signal.signal(number, signal.SIG_DFL)


def yosys_share() -> str:
    """The folder of Yosys's own files."""
    return os.path.realpath(f"{os.path.dirname(tools.find(tools.YOSYS) or '')}/../share/yosys")


class InFolder(unittest.TestCase):
    """A test with its own folder, which is removed after it."""

    def setUp(self) -> None:
        room = tempfile.TemporaryDirectory(prefix="flow-test-")
        self.addCleanup(room.cleanup)
        self.folder = room.name

    def put(self, name: str, content) -> str:
        """Writes a file, of text or bytes, and returns its path."""
        path = f"{self.folder}/{name}"
        with open(path, "wb") as file:
            file.write(content if isinstance(content, bytes) else content.encode())
        return path

    def assert_fault(self, ran: subprocess.CompletedProcess, part: str, status: int = 1) -> None:
        """The call failed with one line on standard error that has a part."""
        self.assertEqual(ran.returncode, status, ran.stderr)
        self.assertEqual(ran.stderr.count("\n"), 1, ran.stderr)
        self.assertIn(part, ran.stderr)


def cycle_of(circuit: Circuit, configuration: list[int], inputs: str, states: str) -> tuple[str, str]:
    """The outputs and the next states of one cycle of the tables, as digits."""
    values = {net: int(bit) for net, bit in zip(circuit.inputs, inputs)}
    values.update({latch.state: int(bit) for latch, bit in zip(circuit.latches, states)})
    for table in circuit.luts:
        place = sum(values[leaf] << digit for digit, leaf in enumerate(table.leaves))
        values[table.net] = configuration[table.first + place]
    outputs = "".join(str(values[root]) for root in circuit.roots.values())
    return outputs, "".join(str(values[latch.source]) for latch in circuit.latches)
