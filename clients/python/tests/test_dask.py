"""Tables in partitions: answers put end to end, descriptions merged, and workers that fail."""
from __future__ import annotations

import contextlib
import os
import random
import signal
import subprocess
import sys
import tempfile
import time
import unittest
from typing import Any, Dict, List, Optional, Tuple

import common
from colscan import Refused, SessionEnded, Table, col, dask, lit
from colscan.dask import end_to_end, merged
from colscan.explain import plan_of

DTYPE = {"a": "i32?", "s": "utf8?", "t": "bool", "x": "binary", "p": {"q": "u64"}}
PATHS = ("a", "s", "t", "x", ("p", "q"))
# Seconds for a test on a cluster, whose workers take many to start on a machine that is busy.
PATIENCE = int(float(os.environ.get("COLSCAN_TESTS_SECONDS", "120")))


def random_rows(chance: random.Random, count: int) -> List[List[Any]]:
    """Rows that are alike within a chunk, so that bounds tell something."""
    about = chance.randrange(-40, 40)
    letters = chance.choice(["abc", "bcd", "xyz"])
    nulls = chance.choice([0.0, 0.1, 1.0])
    return [
        [
            None if chance.random() < nulls else about + chance.randrange(9),
            None if chance.random() < 0.2 else "".join(chance.choices(letters, k=3)),
            chance.random() < 0.5,
            bytes(chance.choices(range(254, 256), k=chance.randrange(4))),
            [chance.randrange(2**62, 2**64)],
        ]
        for _ in range(count)
    ]


def random_test(chance: random.Random) -> Any:
    number = chance.randrange(-40, 40)
    text = "".join(chance.choices("abcxyz", k=chance.randrange(1, 3)))
    return chance.choice([
        col("a") > number, col("a") == number, col("a").between(number, number + 9, closed="left"),
        lit(number) >= col("a"), col("a").is_null(), col("a").is_not_null(), col("s") < text,
        col("s").like(text + "%"), col("s").not_like("%" + text), col("s").is_null(), col("t"),
        col("x") >= b"\xff", col("p", "q") < 2**63 + number, lit(chance.random() < 0.5),
    ])


def random_predicate(chance: random.Random, depth: int = 3) -> Any:
    form = chance.choice(["and", "or", "not", "test", "test"]) if depth else "test"
    if form == "test":
        return random_test(chance)
    one = random_predicate(chance, depth - 1)
    if form == "not":
        return ~one
    other = random_predicate(chance, depth - 1)
    return one & other if form == "and" else one | other


class Partitions:
    """Rows in partitions and chunks, and the one table of them all."""

    def __init__(self, seed: int, size: int, per_group: int) -> None:
        self.chance = random.Random(seed)
        counts = [3, 0, 1, 5, 2, 4, 1, 3]
        self.size = size
        self.per_group = per_group
        self.parts = [
            [row for _ in range(count) for row in random_rows(self.chance, size)]
            for count in counts
        ]
        # The last chunk of the last partition is shorter.
        self.parts[-1].pop()

    def whole(self) -> Table:
        """One table of the same chunks and groups."""
        table = Table.create(DTYPE, 2, program=common.program(), timeout=common.TIMEOUT)
        group = 0
        for part in self.parts:
            table.append(part, rows_per_chunk=self.size)
            while group < len(table.groups):
                while table.groups[group] < self.per_group and group + 1 < len(table.groups):
                    table.join(group)
                group += 1
        return table

    def spread(self, client: Any, **options: Any) -> dask.DaskTable:
        return dask.from_parts(
            DTYPE, self.parts, client=client, length=2, rows_per_chunk=self.size,
            chunks_per_group=self.per_group, program=common.program(), timeout=common.TIMEOUT,
            **{"keep": 8, **options},
        )


def said(answer: Any) -> Tuple[Any, ...]:
    """All that an answer says."""
    return (answer.rows, answer.dtype, answer.skipped, answer.whole, answer.rows_tested,
            answer.proofs, answer.chunk_rows, answer.groups)


class Law(unittest.TestCase):
    """What needs no Dask."""

    def test_counts_stay_at_the_greatest(self) -> None:
        part = {"dtype": {}, "rows": [], "skipped": [], "whole": [], "rows_tested": 2**63,
                "proofs": 2**64 - 1}
        found = end_to_end([part, part], [0, 0])
        self.assertEqual((found["rows_tested"], found["proofs"]), (2**64 - 1, 2**64 - 1))

    def test_descriptions_are_merged_as_by_a_join(self) -> None:
        chance = random.Random(3)
        for kind, values in (
            ("i64?", [-(2**63), 2**63 - 1, 0, 1, None]), ("u64?", [0, 2**64 - 1, 1, None]),
            ("utf8?", ["", "ab", "abc", "\U0010ffff\U0010ffff", None]), ("bool?", [True, None]),
            ("binary?", [b"", b"\xff\xff\xff", b"\x00", None]),
        ):
            with Table.create({"a": kind}, 2, program=common.program(),
                              timeout=common.TIMEOUT) as table:
                for _ in range(30):
                    count = chance.randrange(1, 4)
                    table.append([[chance.choice(values)] for _ in range(count)])
                self.joins(table, kind)

    def joins(self, table: Table, kind: str) -> None:
        """Each join of the first two groups gives what a merge gives."""
        known = table.describe("a", 0)
        while len(table.groups) > 1:
            known = merged(kind.rstrip("?"), known, table.describe("a", 1))
            table.join(0)
            self.assertEqual(table.describe("a", 0), known)


class Pipes(unittest.TestCase):
    """The lines of GUIDE for Spark: what `RDD.pipe` does is done by a child for each partition."""

    @staticmethod
    def pipe(lines: List[str]) -> List[str]:
        done = subprocess.run(common.program(), input="".join(line + "\n" for line in lines),
                              capture_output=True, text=True, timeout=common.TIMEOUT)
        return done.stdout.splitlines()

    def test_lines_of_partitions(self) -> None:
        import json

        dtype = {"kind": "struct", "names": ["a"], "children": [{"kind": "i32"}]}
        create = {"cmd": "create", "dtype": dtype, "length": 16}
        scan = {"cmd": "scan", "paths": [[]], "where": (col("a") > 3).to_json(dtype)}
        found = []
        for part in ([[1], [5]], [[2]], [[9], [4]]):
            append = {"cmd": "append", "dtype": dtype, "rows": part}
            lines = [json.dumps(command) for command in (create, append, scan)]
            found += [json.loads(answer) for answer in self.pipe(lines)]
        answers = [answer for answer in found if "rows" in answer]
        whole = end_to_end(answers, [1, 1, 1])
        self.assertEqual(whole["rows"], [[5], [9], [4]])
        self.assertEqual(whole["skipped"], [1])


WORKERS = 2
_client: List[Any] = []
_cluster = contextlib.ExitStack()


def started() -> Any:
    """The client of a cluster of local processes, which all tests of this file share: a worker
    takes seconds to start."""
    from distributed import Client, LocalCluster

    if not _client:
        folder = _cluster.enter_context(tempfile.TemporaryDirectory())
        cluster = LocalCluster(n_workers=WORKERS, threads_per_worker=1, processes=True,
                               dashboard_address=None, silence_logs=50, local_directory=folder)
        _cluster.callback(cluster.close, 30)
        _client.append(Client(cluster, timeout=30))
        _cluster.callback(_client[0].close, 30)
    return _client[0]


def tearDownModule() -> None:
    _cluster.close()


@common.needs("distributed")
class OnCluster(unittest.TestCase):
    """Tests on local processes of Dask's own scheduler."""

    @classmethod
    def setUpClass(cls) -> None:
        cls.client = started()

    def setUp(self) -> None:
        """No test hangs: what takes too long is a failure."""

        def late(number: int, frame: Any) -> None:
            raise TimeoutError("the test took more than %d seconds" % PATIENCE)

        before = signal.signal(signal.SIGALRM, late)
        self.addCleanup(signal.signal, signal.SIGALRM, before)
        signal.alarm(PATIENCE)
        self.addCleanup(signal.alarm, 0)
        # One that a test has killed is replaced in its own time.
        self.client.wait_for_workers(WORKERS, timeout=PATIENCE)


class Scans(OnCluster):
    def test_100_random_scans_are_those_of_one_table(self) -> None:
        for seed, per_group in ((1, 1), (2, 2)):
            made = Partitions(seed, 6, per_group)
            with made.whole() as whole, made.spread(self.client) as spread:
                self.assertEqual(len(spread.parts), 8)
                for _ in range(5):
                    scans = [(random_predicate(made.chance), self.some_paths(made.chance))
                             for _ in range(10)]
                    for scan, answer in zip(scans, spread.scan_all(scans)):
                        self.assertEqual(said(answer), said(whole.scan(*scan)), scan)
                    answer = spread.scan(*scans[0])
                    self.assertEqual(said(answer), said(whole.scan(*scans[0])), scans[0])

    @staticmethod
    def some_paths(chance: random.Random) -> Any:
        return chance.choice([None, [], ["s"], [("p", "q"), "a"]])

    def test_descriptions_are_those_of_one_table(self) -> None:
        made = Partitions(4, 3, 2)
        with made.whole() as whole, made.spread(self.client) as spread:
            for path in PATHS:
                groups = [whole.describe(path, at) for at in range(len(whole.groups))]
                self.assertEqual(spread.describe_groups(path), groups)
            described = {path: spread.describe(path) for path in PATHS}
            # First the groups of each part are joined, then what became of these.
            counts = [-(-count // 2) for count in (3, 0, 1, 5, 2, 4, 1, 3)]
            for at, count in enumerate(count for count in counts if count):
                for _ in range(count - 1):
                    whole.join(at)
            while len(whole.groups) > 1:
                whole.join(0)
            for path in PATHS:
                self.assertEqual(described[path], whole.describe(path), path)

    def test_pictures(self) -> None:
        made = Partitions(5, 4, 2)
        predicate = col("a").between(0, 9) & col("s").like("a%")
        with made.whole() as whole, made.spread(self.client) as spread:
            self.assertEqual(plan_of(spread, predicate), plan_of(whole, predicate))
            self.assertEqual(spread.scan(predicate).picture(60), whole.scan(predicate).picture(60))

    def test_no_rows_at_all(self) -> None:
        for parts in ([], [[], []]):
            with dask.from_parts({"a": "i32"}, parts, client=self.client,
                                 program=common.program()) as spread:
                answer = spread.scan(col("a") > 1)
                self.assertEqual((answer.rows, answer.names, answer.chunk_rows), ([], ["a"], []))
                self.assertIsNone(spread.describe("a"))

    def test_refusals(self) -> None:
        with dask.from_parts({"a": "i32"}, [[[1]], [[2]]], client=self.client,
                             program=common.program()) as spread:
            with self.assertRaises(Refused) as refused:
                spread.scan(col("b") > 1)
            self.assertEqual((refused.exception.number, refused.exception.name),
                             (12, "UnknownColumn"))
        with self.assertRaises(Refused) as refused:
            dask.from_parts({"a": "i32"}, [[[1]]], client=self.client, lengths={"z": 1},
                            program=common.program())
        self.assertEqual(refused.exception.number, 9)

    def test_a_process_a_worker(self) -> None:
        made = Partitions(6, 2, 1)
        with made.spread(self.client, keep=1) as spread:
            spread.scan()
            pids = self.pids()
            self.assertEqual([len(one) for one in pids.values()], [1] * WORKERS)
        self.assertEqual([len(one) for one in self.pids().values()], [0] * WORKERS)
        self.assertTrue(gone(pid for one in pids.values() for pid in one))

    def pids(self) -> Dict[str, List[int]]:
        found: Dict[str, List[int]] = self.client.run(waiting_pids)
        return found

    @common.needs("dask")
    def test_delayed_partitions_and_bags(self) -> None:
        from dask import bag, delayed

        rows = [[[number], [number + 10]] for number in range(3)]
        options = {"client": self.client, "program": common.program()}
        for parts in (
            [delayed(list)(part) for part in rows],
            [self.client.submit(list, part) for part in rows],
            bag.from_sequence([row for part in rows for row in part], npartitions=3).to_delayed(),
        ):
            with dask.from_parts({"a": "i32"}, parts, **options) as spread:
                self.assertEqual(spread.scan(col("a") > 0).rows, [[10], [1], [11], [2], [12]])

    @common.needs("pandas")
    def test_frames(self) -> None:
        import pandas
        from dask import dataframe

        frame = pandas.DataFrame({"a": range(9), "s": [None, *"bcdefghi"]})
        spread = dask.from_frame(dataframe.from_pandas(frame, npartitions=3), client=self.client,
                                 program=common.program())
        with spread:
            self.assertEqual(str(spread.type), "struct<a: i64, s: utf8?>")
            self.assertEqual(spread.scan(col("s").is_null() | (col("a") == 7)).rows,
                             [[0, None], [7, "h"]])


def waiting_pids() -> List[int]:
    """On a worker: its processes that wait for the next scan."""
    from colscan import dask as there

    return [process.session.pid for process in there._waiting.values()]


def gone(pids: Any) -> bool:
    """Whether all these processes have ended, after some patience."""
    last = time.monotonic() + 10
    pids = list(pids)
    while any(map(common.is_running, pids)):
        if time.monotonic() > last:
            return False
        time.sleep(0.05)
    return True


# A program that answers a create and an append, and half of what it answers to a scan.
HALF = """
import subprocess, sys
child = subprocess.Popen(sys.argv[1], stdin=subprocess.PIPE, stdout=subprocess.PIPE)
for number, line in enumerate(sys.stdin.buffer):
    child.stdin.write(line)
    child.stdin.flush()
    answer = child.stdout.readline()
    sys.stdout.buffer.write(answer if number < 2 else answer[:30])
    sys.stdout.buffer.flush()
    if number == 2:
        child.kill()
        sys.exit(1)
"""


class Failures(OnCluster):
    """Programs that fail once, or always; each test has a folder by which they know."""

    def setUp(self) -> None:
        super().setUp()
        folder = tempfile.TemporaryDirectory()
        self.addCleanup(folder.cleanup)
        self.folder = folder.name

    def program(self, once: str) -> List[str]:
        """The program, but for the first that starts, which does this."""
        words = " ".join(map("'{}'".format, common.program()))
        script = "if mkdir '%s/once' 2> /dev/null; then %s; fi; exec %s"
        return ["sh", "-c", script % (self.folder, once, words)]

    def rows(self, program: List[str], **options: Any) -> Optional[List[List[int]]]:
        parts = [[[at], [at + 100]] for at in range(8)]
        with dask.from_parts({"a": "i32"}, parts, client=self.client, program=program,
                             timeout=common.TIMEOUT, **options) as spread:
            answer = spread.scan(col("a") != 3)
        self.assertTrue(os.path.isdir(self.folder + "/once"))
        self.assertEqual(answer.rows_tested, 16)
        return answer.rows

    WANTED = [[at + more] for at in range(8) for more in (0, 100) if at + more != 3]

    def test_a_process_that_ends(self) -> None:
        self.assertEqual(self.rows(self.program("read line; exit 3")), self.WANTED)

    def test_a_process_that_writes_no_json(self) -> None:
        self.assertEqual(self.rows(self.program("read line; echo what; cat")), self.WANTED)

    def test_a_worker_that_is_killed(self) -> None:
        self.assertEqual(self.rows(self.program("kill -9 $PPID")), self.WANTED)

    def test_a_process_that_ends_within_a_scan(self) -> None:
        once = "exec '%s' -c '%s' '%s'" % (sys.executable, HALF, common.program()[0])
        self.assertEqual(self.rows(self.program(once), keep=8), self.WANTED)

    def test_without_another_try(self) -> None:
        with self.assertRaises(SessionEnded):
            self.rows(self.program("read line; exit 3"), retries=0)

    def test_a_program_that_always_fails(self) -> None:
        with self.assertRaises(SessionEnded):
            self.rows(["sh", "-c", "exit 4"])


@common.needs("distributed")
class Endings(unittest.TestCase):
    def test_nothing_is_left_behind_a_cluster(self) -> None:
        from distributed import Client, LocalCluster

        folder = tempfile.TemporaryDirectory()
        self.addCleanup(folder.cleanup)
        with LocalCluster(n_workers=1, threads_per_worker=1, processes=True, silence_logs=50,
                          dashboard_address=None, local_directory=folder.name) as cluster:
            with Client(cluster, timeout=30) as client:
                spread = dask.from_parts({"a": "i32"}, [[[1]]], client=client,
                                         program=common.program())
                self.assertEqual(spread.scan().rows, [[1]])
                pids = [pid for one in client.run(waiting_pids).values() for pid in one]
        self.assertEqual(len(pids), 1)
        self.assertTrue(gone(pids))


if __name__ == "__main__":
    unittest.main()
