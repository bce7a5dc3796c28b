"""Progress of the first call on stderr: each crate that is proved, what is being proved, and about how long the rest takes.

The estimate lays the crates that are left out on the processors, by the minutes of crate_work.txt and by which crate waits for which. It
then takes into account how fast the crates so far were on this machine.
"""

from __future__ import annotations

import heapq
import os
import sys
import threading
import time
from typing import Callable, NamedTuple

import gate_minutes
from shared import TOP

# After this many seconds without a line, one says that the work continues.
SILENCE = 25
# How much longer than laid out the first call took on the machine on which the minutes were measured, since provers share memory.
SHARED = 1.3
# For so many minutes the estimate trusts the known minutes more than the speed so far.
TRUSTED = 2.0
# How many of the crates that are being proved a line names.
NAMED = 2


class Work(NamedTuple):
    """What the proof of a crate takes, and what it proves in words."""

    minutes: float
    words: str


def read_work() -> dict[str, Work]:
    """The lines of crate_work.txt, by the name of the crate."""
    with open(f"{TOP}/tools/crate_work.txt", encoding="utf-8") as file:
        lines = [line.split(maxsplit=2) for line in file if not line.startswith("#")]
    return {name: Work(float(minutes), words.strip()) for name, minutes, words in lines}


def chains(minutes: dict[str, float], uses: dict[str, list[str]], left: set[str]) -> dict[str, float]:
    """The minutes from the begin of each crate that is left to the end of all that wait for it."""
    found: dict[str, float] = {}

    def chain(name: str) -> float:
        if name not in found:
            found[name] = minutes[name] + max((chain(it) for it in left if name in uses[it]), default=0.0)
        return found[name]

    for name in left:
        chain(name)
    return found


def laid_out(minutes: dict[str, float], uses: dict[str, list[str]], left: set[str], processors: int) -> float:
    """The minutes that the crates that are left take on these processors. Of those that need not wait, the one with the longest chain is first."""
    chain, waiting, now = chains(minutes, uses, left), set(left), 0.0
    running: list[tuple[float, str]] = []
    while waiting or running:
        begun = {name for _, name in running}
        ready = sorted((it for it in waiting if not any(dep in waiting or dep in begun for dep in uses[it])), key=lambda it: (-chain[it], it))
        for name in ready[: processors - len(running)]:
            waiting.remove(name)
            heapq.heappush(running, (now + minutes[name], name))
        now, _ = heapq.heappop(running)
    return now


class Estimate:
    """How many minutes are left, by which crates are proved."""

    def __init__(self, minutes: dict[str, float], uses: dict[str, list[str]], processors: int) -> None:
        self.minutes, self.uses, self.processors = minutes, uses, processors
        self.left = set(minutes)
        self.whole = self.rest = self.lay_out()

    def lay_out(self) -> float:
        return SHARED * laid_out(self.minutes, self.uses, self.left, self.processors)

    def done(self, name: str, is_kept: bool) -> None:
        """A crate is proved, in this run or, if it is kept, in an earlier one."""
        self.left.discard(name)
        self.rest = self.lay_out()
        if is_kept:
            self.whole = self.rest

    def minutes_left(self, elapsed: float) -> float:
        """The minutes that are left after these minutes of work."""
        speed = (elapsed + TRUSTED) / (self.whole - self.rest + TRUSTED)
        return self.rest * speed


def about(minutes: float) -> str:
    """A number of minutes in words."""
    rounded = max(1, round(minutes))
    return f"about {rounded} minute{'s' if rounded > 1 else ''} left"


def proved_below(pid: int) -> list[str]:
    """The crates of which a process below this one proves something now."""
    found = gate_minutes.below(gate_minutes.processes(), pid)
    kinds = [gate_minutes.kind_of(words, folder) for _, _, words, folder in found.values()]
    return sorted({kind[0] for kind in kinds if kind and kind[1] == "proof"})


class Voice:
    """Reports progress on stderr: each crate that is proved, and that the work continues if that takes long."""

    def __init__(self, work: dict[str, Work], uses: dict[str, list[str]], silence: float = SILENCE) -> None:
        self.work, self.silence, self.proved, self.kept = work, silence, 0, 0
        self.estimate = Estimate({name: it.minutes for name, it in work.items()}, uses, os.cpu_count() or 1)
        self.at_work: Callable[[], list[str]] = list
        self.begun = self.told = time.monotonic()
        self.lock, self.ended = threading.Lock(), threading.Event()
        self.watch = threading.Thread(target=self.beat, daemon=True)

    def __enter__(self) -> Voice:
        self.watch.start()
        return self

    def __exit__(self, *_: object) -> None:
        self.ended.set()
        self.watch.join()

    def watches(self, pid: int) -> None:
        """What is being proved is told from the processes below this one."""
        self.at_work = lambda: proved_below(pid)

    def say(self, text: str) -> None:
        """Prints a line."""
        with self.lock:
            self.told = time.monotonic()
            print(f"tlut: {text}", file=sys.stderr, flush=True)

    def left(self) -> str:
        """About how many minutes are left."""
        return about(self.estimate.minutes_left((time.monotonic() - self.begun) / 60))

    def step(self, name: str, is_kept: bool = False) -> None:
        """A crate is proved, in this call or in an earlier one."""
        self.proved += 1
        self.kept += is_kept
        self.estimate.done(name, is_kept)
        if not is_kept:
            rest = f"; {self.left()}" if self.estimate.left else ""
            self.say(f"proved {name}: {self.work[name].words} ({self.proved} of {len(self.work)}{rest})")
        elif self.kept == 1:
            self.say("an earlier call proved a part of this; it is not proved again")

    def beat(self) -> None:
        """Says that the work continues, whenever there was silence, until it has ended."""
        while not self.ended.wait(self.silence / 10):
            if time.monotonic() - self.told >= self.silence:
                minutes, seconds = divmod(int(time.monotonic() - self.begun), 60)
                self.say(f"at work for {minutes} min {seconds:02} s, {self.proved} of {len(self.work)} crates are proved, {self.left()}{self.now()}")

    def now(self) -> str:
        """What is being proved at present."""
        names = [it for it in self.at_work() if it in self.work]
        shown = [f"{it} ({self.work[it].words})" for it in names[:NAMED]]
        more = f" and {len(names) - NAMED} more" if len(names) > NAMED else ""
        return f"; now {', '.join(shown)}{more}" if shown else ""
