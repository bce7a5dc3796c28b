"""Jobs that share pieces, and preparations that share steps."""

import unittest
from typing import Any

from tlutflow.faults import Fault
from tlutflow.preparations import MOST_ROUNDS, PREPARATIONS, Preparation, chosen
from tlutflow.preparing.graphs import Bench, Graph, levels_of
from tlutflow.preparing.pieces import Job, Jobs, Piece
from tlutflow.tests.helpers import InFolder


class Shared(unittest.TestCase):
    def setUp(self) -> None:
        self.done: list[str] = []

    def work(self, name: str) -> str:
        """A piece that notes its name; one that is called bad fails."""
        self.done.append(name)
        if name == "bad":
            raise Fault("a bad piece")
        return name.upper()

    def job(self, *names: str) -> Job[str]:
        """A job of these pieces, whose cost is how many are left."""
        made = ""
        try:
            for place, name in enumerate(names):
                made += yield Piece((name,), lambda name=name: self.work(name), len(names) - place)
        except Fault as fault:
            return f"{made}, {fault}"
        return made

    def test_each_piece_is_done_once(self) -> None:
        for workers in (1, 3):
            self.done = []
            jobs = [self.job("a", "b", "c"), self.job("a", "b", "c", "d"), self.job("a", "e"), self.job(), self.job("b")]
            self.assertEqual(dict(Jobs(jobs, workers).run()), {0: "ABC", 1: "ABCD", 2: "AE", 3: "", 4: "B"})
            self.assertEqual(sorted(self.done), ["a", "b", "c", "d", "e"])

    def test_what_has_most_to_do_is_next(self) -> None:
        jobs = [self.job("x"), self.job("a", "c"), self.job("a", "b", "d", "e")]
        self.assertEqual([place for place, _ in Jobs(jobs, 1).run()], [0, 1, 2])
        self.assertEqual("".join(self.done), "abdxce")

    def test_faults(self) -> None:
        jobs = [self.job("a", "bad", "c"), self.job("bad"), self.job("a")]
        self.assertEqual(dict(Jobs(jobs, 2).run()), {0: "A, a bad piece", 1: ", a bad piece", 2: "A"})
        self.assertEqual(sorted(self.done), ["a", "bad"])

        def broken() -> Job[str]:
            yield Piece(("z",), lambda: 1 // 0, 0)
            return ""

        with self.assertRaises(ZeroDivisionError):
            list(Jobs([broken()], 1).run())


class Steps(InFolder):
    def pieces(self, name: str, levels: list[int], processor: float = 0) -> list[tuple[str, ...]]:
        """The keys of a preparation's pieces, if its steps leave graphs of these levels and take this processor time each."""
        job: Job[Graph] = Bench("abc", self.folder, 60).prepared(Graph("source"), chosen([name], PREPARATIONS)[0])
        keys: list[tuple[str, ...]] = []
        made: Any = None
        try:
            while True:
                keys.append(job.send(made).key)
                made = Graph(f"g{len(keys)}", levels[len(keys) - 1], processor)
        except StopIteration:
            return keys

    def test_what_begins_alike_is_shared(self) -> None:
        levels = [9, 7, 6, 6, 6, 6]
        stays, twice, four, without = (self.pieces(name, levels) for name in ("dgstay", "dg2", "dg4", "g4"))
        self.assertEqual([len(it) for it in (stays, twice, four, without)], [5, 4, 6, 6])
        self.assertEqual(twice[:3], four[:3])
        self.assertEqual(stays[:4], four[:4])
        # The third round made no fewer levels, so the last step is that of two rounds.
        self.assertEqual(stays[4], twice[3])
        self.assertEqual([it in four for it in without[:2]], [True, False])
        self.assertEqual(len(self.pieces("gstay", list(range(90, 0, -1)))), 1 + MOST_ROUNDS + 1)

    def test_limit(self) -> None:
        """All steps of a preparation together have the limit; each round of a repetition has its own."""
        self.assertEqual(len(self.pieces("dg4", [9] * 6, 10)), 6)
        with self.assertRaisesRegex(Fault, "ABC was stopped after 60 seconds of processor time"):
            self.pieces("dg4", [9] * 6, 10.1)
        self.assertEqual(len(self.pieces("dgstay", [9, 8, 7, 7, 7], 59)), 5)

    def test_levels(self) -> None:
        self.assertEqual(levels_of("\x1b[1;37mlogic\x1b[0m : i/o = 3/ 1 lat = 0 and = 4 lev = 12\x1b[0m\n"), 12)
        self.assertEqual(levels_of("nothing"), 0)

    def test_cost(self) -> None:
        self.assertEqual(Preparation("n", ("strash", "dch; if -g -K 6; strash"), "if -g", "dch").cost, 2 + MOST_ROUNDS + 1)
