"""Progress of work that may take long: lines on standard error, none if it is done soon."""

from __future__ import annotations

import sys
import threading
import time
from contextlib import contextmanager
from typing import Callable, Iterator, Union

# Seconds until the first line, and between two lines at most.
FIRST, MOST = 20, 60


@contextmanager
def patience(prog: str, work: Union[str, Callable[[], str]]) -> Iterator[None]:
    """Says on standard error how long some work has been running: after 20 seconds, then twice as late each time, but every minute. `work`
    names it, or says how far it is."""
    done, begun = threading.Event(), time.monotonic()

    def tell() -> None:
        wait = FIRST
        while not done.wait(wait):
            print(f"{prog}: {work if isinstance(work, str) else work()}: {time.monotonic() - begun:.0f} s so far", file=sys.stderr, flush=True)
            wait = min(round(time.monotonic() - begun), MOST)

    thread = threading.Thread(target=tell, daemon=True)
    thread.start()
    try:
        yield
    finally:
        done.set()
        thread.join()
