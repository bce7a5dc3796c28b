"""Jobs in pieces, several at a time. Jobs that ask for the same piece share it: it is done once.

A job is a generator: it yields the piece that it needs next, and is sent that piece's result, or the fault that it raised.
"""

from __future__ import annotations

from concurrent.futures import FIRST_COMPLETED, Future, ThreadPoolExecutor, wait
from dataclasses import dataclass
from typing import Any, Callable, Generator, Generic, Iterator, Optional, TypeVar

Ended = TypeVar("Ended")
Key = tuple[str, ...]


@dataclass(frozen=True)
class Piece:
    """A piece of work. Pieces with the same key are the same one. `cost` is roughly how much its job still has to do, this piece included."""

    key: Key
    work: Callable[[], Any]
    cost: int


Job = Generator[Piece, Any, Ended]


class Jobs(Generic[Ended]):
    """Jobs that run together: the pieces that could begin, the jobs that wait for each piece, and the pieces that are done."""

    def __init__(self, jobs: list[Job[Ended]], workers: int):
        self.jobs, self.workers = jobs, workers
        self.ready: dict[Key, Piece] = {}
        self.waiting: dict[Key, list[int]] = {}
        self.done: dict[Key, Future[Any]] = {}

    def run(self) -> Iterator[tuple[int, Ended]]:
        """Yields the place and the result of each job when it ends. Of the pieces that could begin, one whose job has the most left to do
        is next, so that no long job is left alone at the end."""
        running: dict[Future[Any], Key] = {}
        with ThreadPoolExecutor(self.workers) as pool:
            for place in range(len(self.jobs)):
                yield from self.resume(place, None)
            while self.ready or running:
                while self.ready and len(running) < self.workers:
                    piece = max(self.ready.values(), key=lambda it: it.cost)
                    running[pool.submit(self.ready.pop(piece.key).work)] = piece.key
                for future in wait(running, return_when=FIRST_COMPLETED).done:
                    key = running.pop(future)
                    self.done[key] = future
                    for place in self.waiting.pop(key):
                        yield from self.resume(place, future)

    def resume(self, place: int, ended: Optional[Future[Any]]) -> Iterator[tuple[int, Ended]]:
        """Takes a job to a piece that isn't done yet, or to its end."""
        job = self.jobs[place]
        try:
            piece = next(job) if ended is None else proceed(job, ended)
            while piece.key in self.done:
                piece = proceed(job, self.done[piece.key])
        except StopIteration as end:
            yield place, end.value
            return
        if piece.key not in self.waiting or (piece.key in self.ready and self.ready[piece.key].cost < piece.cost):
            self.ready[piece.key] = piece
        self.waiting.setdefault(piece.key, []).append(place)


def proceed(job: Job[Ended], ended: Future[Any]) -> Piece:
    """The next piece of a job after one that has ended."""
    error = ended.exception()
    return job.throw(error) if error else job.send(ended.result())
