"""Other programs while they run. None is left behind if the companion is told to stop, and what one has called is stopped with it."""

from __future__ import annotations

import contextlib
import os
import signal
import subprocess
import threading
from contextlib import contextmanager
from types import FrameType
from typing import Any, Iterator, Optional

from tlutflow.faults import Fault

# The signals by which a user, a terminal or a system stops a program, and the seconds that a program has to end after one.
SIGNALS = (signal.SIGINT, signal.SIGTERM, signal.SIGHUP)
GRACE = 2.0
Process = subprocess.Popen[Any]


class Stopped(KeyboardInterrupt):
    """The companion was told to stop."""


class Programs:
    """The programs that run, and whether they are to be stopped. With `is_guarded` each one has a group of its own."""

    def __init__(self) -> None:
        self.running: set[Process] = set()
        self.is_guarded = self.is_stopping = False
        self.here = threading.local()

    def start(self, words: list[str], is_group: bool, **how: Any) -> Process:
        """Starts a program, in a group of its own if that is wanted or signals are handled."""
        self.here.is_starting = True
        try:
            self.refuse()
            process = subprocess.Popen(words, start_new_session=is_group or self.is_guarded, **how)
            self.running.add(process)
        except OSError as error:
            raise Fault(f"{words[0]}: {error.strerror or error}") from error
        finally:
            self.here.is_starting = False
        if self.is_stopping:
            kill(process, signal.SIGKILL)
            process.wait()
            self.ended(process)
        return process

    def ended(self, process: Process) -> None:
        """Takes note that a program has ended. What it left is of no use if it was stopped."""
        self.running.discard(process)
        self.refuse()

    def refuse(self) -> None:
        """Goes on only if nothing is to be stopped."""
        if self.is_stopping:
            raise Stopped

    def stop(self) -> None:
        """Asks all programs to end, and kills those that haven't ended a little later."""
        self.is_stopping = True
        for process in list(self.running):
            kill(process, signal.SIGTERM)
        timer = threading.Timer(GRACE, self.kill)
        timer.daemon = True
        timer.start()

    def kill(self) -> None:
        """Kills the programs that still run, if they are still to be stopped."""
        for process in list(self.running) if self.is_stopping else ():
            kill(process, signal.SIGKILL)

    def handle(self, number: int, frame: Optional[FrameType]) -> None:
        """What a signal does: a further one changes nothing."""
        del number, frame
        if not self.is_stopping:
            self.stop()
            if not getattr(self.here, "is_starting", False):
                raise Stopped


PROGRAMS = Programs()


@contextmanager
def stoppable() -> Iterator[None]:
    """Within, a signal that stops the companion stops the programs that it runs. A signal that was ignored still is."""
    if threading.current_thread() is not threading.main_thread() or PROGRAMS.is_guarded:
        yield
        return
    before = {it: signal.getsignal(it) for it in SIGNALS}
    PROGRAMS.is_guarded, PROGRAMS.is_stopping = True, False
    for it, handler in before.items():
        if handler is not signal.SIG_IGN:
            signal.signal(it, PROGRAMS.handle)
    try:
        yield
    finally:
        PROGRAMS.is_guarded = PROGRAMS.is_stopping = False
        for it, handler in before.items():
            signal.signal(it, handler if handler is not None else signal.SIG_DFL)


def kill(process: Process, number: int) -> None:
    """Sends a signal to a program, and to those that it has called if they are its group."""
    with contextlib.suppress(ProcessLookupError, PermissionError):
        if process.returncode is None and os.getpgid(process.pid) == process.pid:
            os.killpg(process.pid, number)
        process.send_signal(number)


def end(process: Process) -> None:
    """Ends a program whose outputs are pipes: it may end by itself first, and stop what it has called."""
    kill(process, signal.SIGTERM)
    try:
        process.communicate(timeout=GRACE)
    except subprocess.TimeoutExpired:
        kill(process, signal.SIGKILL)
        process.communicate()
