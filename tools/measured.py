"""Runs a command from a process that has little memory of its own, and prints its time and its memory.

    python3 tools/measured.py STACK FOLDER PROGRAM WORD..

The command runs in the folder, with a stack of STACK bytes (0: unchanged), and leaves its outputs in the files `out` and `err` there.
Printed are its status, the seconds by the clock and of CPU time, and the greatest resident size in MB.
"""

from __future__ import annotations

import os
import resource
import subprocess
import sys
import time
from dataclasses import dataclass


@dataclass
class Measured:
    """What a command took: seconds by the clock and of the processor, and the greatest resident size in MB."""

    status: int
    clock: float
    processor: float
    megabytes: int


def run(folder: str, words: list[str], stack: int = 0) -> Measured:
    """Runs a command in a folder and returns what it took; its outputs are in the files `out` and `err` there."""
    inner = [sys.executable, os.path.abspath(__file__), str(stack), folder, *words]
    status, clock, processor, megabytes = subprocess.run(inner, stdout=subprocess.PIPE, text=True, check=True).stdout.split()
    return Measured(int(status), float(clock), float(processor), int(megabytes))


def main(stack: str, folder: str, *words: str) -> None:
    begun = time.monotonic()
    process = os.fork()
    if process == 0:
        if int(stack):
            resource.setrlimit(resource.RLIMIT_STACK, (int(stack), int(stack)))
        os.chdir(folder)
        os.dup2(os.open("out", os.O_WRONLY | os.O_CREAT | os.O_TRUNC), 1)
        os.dup2(os.open("err", os.O_WRONLY | os.O_CREAT | os.O_TRUNC), 2)
        os.execv(words[0], words)
    _, status, used = os.wait4(process, 0)
    print(os.waitstatus_to_exitcode(status), time.monotonic() - begun, used.ru_utime + used.ru_stime, used.ru_maxrss // 1024)


if __name__ == "__main__":
    main(*sys.argv[1:])
