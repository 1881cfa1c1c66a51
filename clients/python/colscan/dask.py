"""A table in partitions, each scanned by a process of a Dask worker.

Dask's own scheduler places the work, and runs it again where a worker is lost. What it brings back
is put end to end by a law of the library: tables of one type and one set of bound lengths, scanned
apart, answer in order what the table of all their chunks answers, with numbers of chunks moved.

    from distributed import Client
    from colscan import col, dask

    with Client() as client:
        table = dask.from_parts({"a": "i32?"}, [[[1], [2]], [[7], [None]]], client=client)
        table.scan(col("a") > 1).rows                     # [[2], [7]]

Dask is imported where a table is made, and not before.
"""
from __future__ import annotations

import json
import os
import threading
import uuid
from collections import OrderedDict
from dataclasses import dataclass, replace
from functools import reduce
from itertools import accumulate, chain
from typing import Any, Dict, Iterable, List, Mapping, Optional, Sequence, Tuple, Union

from . import frames
from .batches import batches_of
from .errors import ColscanError, NoPlace, Refused
from .predicates import Predicate, lit
from .process import Program, Session
from .table import ROWS_PER_CHUNK, Answer, Description, Known, Where
from .types import RANGES, PathLike, Type, TypeLike, part_at, path_of, record

# Dask has no types of its own: a distributed.Client, a Future, and a frame of Dask.
Client = Any
Future = Any
Frame = Any

#: The greatest count in an answer; what would be more stays there.
MOST = 2**64 - 1


# ---- the law: answers put end to end, and descriptions merged


def end_to_end(answers: Sequence[Mapping[str, Any]], chunks: Sequence[int]) -> Dict[str, Any]:
    """The answer of the whole table, of those of its parts in order. `chunks` has the number of
    chunks of each part.

    >>> part = {"dtype": {}, "rows": [[7]], "skipped": [0], "whole": [1], "rows_tested": 3,
    ...         "proofs": 2}
    >>> whole = end_to_end([part, part], [2, 2])
    >>> whole["rows"], whole["skipped"], whole["whole"], whole["rows_tested"], whole["proofs"]
    ([[7], [7]], [0, 2], [1, 3], 6, 4)
    """
    if any(answer["dtype"] != answers[0]["dtype"] for answer in answers):
        raise ColscanError("the parts answered rows of different types")
    found: Dict[str, Any] = {"dtype": answers[0]["dtype"], "rows": [], "skipped": [], "whole": []}
    before = 0
    for answer, count in zip(answers, chunks):
        found["rows"] += answer["rows"]
        for key in ("skipped", "whole"):
            found[key] += [chunk + before for chunk in answer[key]]
        before += count
    for key in ("rows_tested", "proofs"):
        found[key] = min(sum(answer[key] for answer in answers), MOST)
    return found


def merged(kind: str, left: Description, right: Description) -> Description:
    """What is known of a column of two neighbours as one group, as a join makes it.

    >>> one = Description(Known(1, True), None, Known(0, True), Known(1, True), Known(True, True))
    >>> two = Description(Known(1, True), None, Known(2, True), Known(5, True), Known(False, True))
    >>> merged("i32", one, two)[2:]
    (Known(value=2, exact=True), Known(value=6, exact=True), Known(value=False, exact=True))
    """
    return Description(
        min=_extreme(min, left.min, right.min),
        max=_extreme(max, left.max, right.max),
        null_count=_added("u64", left.null_count, right.null_count),
        sum=_added("i64" if kind[0] == "i" else "u64", left.sum, right.sum),
        constant=_constant(left, right),
    )


def _extreme(pick: Any, left: Optional[Known], right: Optional[Known]) -> Optional[Known]:
    """The least or the greatest, which is exact where an exact one is it."""
    if left is None or right is None:
        return None
    value = pick(left.value, right.value)
    return Known(value, any(one.exact and one.value == value for one in (left, right)))


def _added(kind: str, left: Optional[Known], right: Optional[Known]) -> Optional[Known]:
    """The sum, where both are known and the type holds it."""
    if left is None or right is None:
        return None
    low, high = RANGES[kind]
    total = left.value + right.value
    return Known(total, True) if low <= total <= high else None


def _constant(left: Description, right: Description) -> Optional[Known]:
    """Two constant columns are one value where their exact bounds from below are equal."""
    if Known(False, True) in (left.constant, right.constant):
        return Known(False, True)
    if left.constant is None or right.constant is None or left.min is None or right.min is None:
        return None
    if not (left.min.exact and right.min.exact):
        return None
    return Known(left.min.value == right.min.value, True)


# ---- on the workers


@dataclass(frozen=True)
class Plan:
    """What a worker has to know of a table to make a part of it."""

    name: str
    type: Type
    create: bytes
    rows_per_chunk: int
    chunks_per_group: int
    program: Optional[Program]
    timeout: float
    keep: int


@dataclass(frozen=True)
class Part:
    """The appends of a partition, each with its number of rows."""

    lines: Tuple[bytes, ...]
    rows: Tuple[int, ...]

    def __repr__(self) -> str:
        # Dask logs what a failed task was called with.
        return "<Part of %d rows in %d chunks>" % (sum(self.rows), len(self.rows))


@dataclass(frozen=True)
class Told:
    """What a part answered, line by line, and how it is cut; or the refusal of what makes it."""

    refusal: Optional[Dict[str, Any]]
    answers: Tuple[Dict[str, Any], ...]
    chunk_rows: Tuple[int, ...]
    groups: Tuple[int, ...]


class Process:
    """A process that holds one part of a table."""

    def __init__(self, plan: Plan, part: Part) -> None:
        self.chunk_rows = part.rows
        self.groups: List[int] = [1] * len(part.rows)
        self.refusal: Optional[Dict[str, Any]] = None
        self.session = Session(plan.program, timeout=plan.timeout)
        try:
            self._load(plan, part)
        except BaseException:
            self.session.kill()
            raise

    def _load(self, plan: Plan, part: Part) -> None:
        """Sends all that makes the part, up to the first refusal. The row at fault is counted from
        the partition's first."""
        joins = self._joins(plan.chunks_per_group)
        before = [0, *accumulate(part.rows, initial=0)]
        for number, line in enumerate(chain((plan.create, *part.lines), joins)):
            answer = self.session.ask_line(line)
            if "error" in answer:
                if "at" in answer and number:
                    answer["at"] += before[number]
                self.refusal = answer
                return

    def _joins(self, size: int) -> Iterable[bytes]:
        """Joins of neighbours to groups of this many chunks."""
        count = len(self.groups)
        self.groups = [min(size, count - at) for at in range(0, count, size)]
        for number, chunks in enumerate(self.groups):
            for _ in range(chunks - 1):
                yield _line({"cmd": "join", "group": number})


#: Processes that wait for the next scan, by the table and the number of their part, the one used
#: last at the end. One that is at work isn't among them, so no two threads use the same.
_waiting: "OrderedDict[Tuple[str, int], Process]" = OrderedDict()
_lock = threading.Lock()


def _line(command: Mapping[str, Any]) -> bytes:
    return json.dumps(command, ensure_ascii=False, separators=(",", ":")).encode("utf-8")


def _lines(data: Any, plan: Plan) -> Part:
    """The appends of a partition: a list of rows, a dictionary of columns, or a frame."""
    lines, rows = [], []
    for batch in batches_of(data, plan.type, plan.rows_per_chunk):
        command = {"cmd": "append", "dtype": plan.type.to_json(), "rows": batch}
        lines.append(_line(command))
        rows.append(len(batch))
    return Part(tuple(lines), tuple(rows))


def _ask(part: Part, plan: Plan, number: int, asked: Tuple[bytes, ...]) -> Told:
    """Asks a part these lines, in a process that has it already or that is made.

    It changes nothing that another call could see, so it can be run again, here or elsewhere. A
    process that failed is ended, and never used again."""
    with _lock:
        process = _waiting.pop((plan.name, number), None)
    if process is None or not process.session.is_open:
        process = Process(plan, part)
    try:
        lines = () if process.refusal else asked
        answers = tuple(map(process.session.ask_line, lines))
    except BaseException:
        process.session.kill()
        raise
    _put_back(plan, number, process)
    return Told(process.refusal, answers, process.chunk_rows, tuple(process.groups))


def _put_back(plan: Plan, number: int, process: Process) -> None:
    with _lock:
        old = [_waiting.pop((plan.name, number), None)]
        _waiting[plan.name, number] = process
        while len(_waiting) > plan.keep:
            old.append(_waiting.popitem(last=False)[1])
    for one in old:
        if one is not None:
            one.session.close()


def _drop(name: str) -> None:
    """Ends the processes of a table."""
    with _lock:
        old = [_waiting.pop(key) for key in list(_waiting) if key[0] == name]
    for one in old:
        one.session.close()


def _same(part: Part) -> Part:
    return part


# ---- on the caller's side


class DaskTable:
    """A table in partitions on the workers of a Dask client; `from_parts` and `from_frame` make
    one. It is scanned and described like a `Table`."""

    def __init__(
        self,
        plan: Plan,
        parts: List[Future],
        client: Client,
        retries: int,
    ) -> None:
        self.type = plan.type
        self.parts = parts
        self.retries = retries
        self._plan = plan
        self._client = client
        # A part that refuses its rows is known now, and how each is cut.
        told = self._ask([()] * len(parts))
        self._chunks = [len(part.chunk_rows) for part in told]
        self._groups = [part.groups for part in told]
        self.chunk_rows = [rows for part in told for rows in part.chunk_rows]
        self.groups = [size for part in told for size in part.groups]

    @property
    def dtype(self) -> Dict[str, Any]:
        """Its type, as the program's lines have it."""
        return self.type.to_json()

    @property
    def names(self) -> List[str]:
        """The names of its columns."""
        return list(self.type.names)

    def _ask(self, asked: Sequence[Tuple[bytes, ...]]) -> List[Told]:
        """What each part answers to its lines, in the order of the parts, whichever was done first.
        Dask keeps one result a part, so what a part answers is there once, however often a worker
        was lost."""
        futures = [
            self._client.submit(
                _ask, part, self._plan, number, lines, retries=self.retries, pure=False
            )
            for number, (part, lines) in enumerate(zip(self.parts, asked))
        ]
        told: List[Told] = self._client.gather(futures)
        for number, part in enumerate(told):
            for answer in (part.refusal or {}, *part.answers):
                if "error" in answer:
                    at = answer.get("at")
                    words = "partition %d" % number + ("" if at is None else ", %d" % at)
                    raise Refused(answer["error"], str(answer.get("name")), words, at)
        return told

    def scan(self, where: Where = None, paths: Optional[Sequence[PathLike]] = None) -> Answer:
        """The rows of all partitions that satisfy a predicate, in order, as `Table.scan` answers
        them of one table."""
        return self.scan_all([(where, paths)])[0]

    def scan_all(self, scans: Sequence[Tuple[Where, Optional[Sequence[PathLike]]]]) -> List[Answer]:
        """The answers to several scans, each of a predicate and paths. One task a partition asks
        them all, so that a partition is loaded at most once."""
        predicates = [_predicate(where) for where, _ in scans]
        lines = tuple(
            _line({
                "cmd": "scan",
                "paths": [[]] if paths is None else [path_of(path) for path in paths],
                "where": predicate.to_json(self.type),
            })
            for predicate, (_, paths) in zip(predicates, scans)
        )
        told = self._ask([lines] * len(self.parts))
        found = []
        for number, predicate in enumerate(predicates):
            whole = end_to_end([part.answers[number] for part in told], self._chunks)
            found.append(Answer(whole, self, predicate))  # type: ignore[arg-type]
        return found

    def describe(self, path: PathLike) -> Optional[Description]:
        """What is known of a column of all partitions: what a table of them would answer, were
        the groups of each joined, and then these. None where there is no row."""
        kind = self._leaf(path).kind
        parts = [_all_merged(kind, part) for part in self._described(path) if part]
        return _all_merged(kind, parts) if parts else None

    def describe_groups(self, path: PathLike) -> List[Description]:
        """What is known of a column in each group, as `Table.describe` answers it."""
        return [one for part in self._described(path) for one in part]

    def _described(self, path: PathLike) -> List[List[Description]]:
        is_binary = self._leaf(path).kind == "binary"
        command = {"cmd": "describe", "path": path_of(path)}
        asked = [
            tuple(_line({**command, "group": at}) for at in range(len(groups)))
            for groups in self._groups
        ]
        return [
            [_description(answer, is_binary) for answer in part.answers]
            for part in self._ask(asked)
        ]

    def _leaf(self, path: PathLike) -> Type:
        part = part_at(self.type, path_of(path))
        if part is None or not part.is_leaf:
            raise NoPlace(str(path), "is no boolean, integer, text or byte string of the table")
        return part

    def explain(self, where: Where, file: "Union[str, os.PathLike[str]]") -> Any:
        """Writes the page that `Table.explain` writes, of all partitions."""
        from . import explain

        return explain.explain(self, _predicate(where), file)

    def close(self) -> None:
        """Ends the processes that the workers keep of it."""
        self._client.run(_drop, self._plan.name)

    def __enter__(self) -> "DaskTable":
        return self

    def __exit__(self, kind: Any, error: Any, trace: Any) -> None:
        self.close()


def _all_merged(kind: str, found: Sequence[Description]) -> Description:
    return reduce(lambda left, right: merged(kind, left, right), found)


def _description(answer: Mapping[str, Any], is_binary: bool) -> Description:
    def known(key: str) -> Optional[Known]:
        how, *value = answer[key]
        if how == "absent":
            return None
        is_bound = is_binary and key in ("min", "max")
        return Known(bytes.fromhex(value[0]) if is_bound else value[0], how == "exact")

    return Description(*map(known, Description._fields))


def _predicate(where: Where) -> Predicate:
    if isinstance(where, str):
        from .where import parse_where

        return parse_where(where)
    return lit(True) if where is None else where


def from_parts(
    dtype: TypeLike,
    parts: Sequence[Any],
    *,
    client: Optional[Client] = None,
    length: int = 16,
    lengths: Optional[Mapping[Any, int]] = None,
    rows_per_chunk: int = ROWS_PER_CHUNK,
    chunks_per_group: int = 1,
    retries: int = 1,
    keep: int = 1,
    program: Optional[Program] = None,
    timeout: float = 600.0,
) -> DaskTable:
    """A table of these partitions, in order.

    A partition is what `Table.append` takes, or a Delayed or Future of Dask that makes it; of
    these the rows never pass through the caller, as of `bag.to_delayed()`. A worker keeps `keep`
    processes, each with one partition: where a worker scans more partitions than that, they are
    loaded anew at each scan. What fails is tried again `retries` times.
    """
    import distributed

    client = distributed.get_client() if client is None else client
    made = record(dtype)
    command: Dict[str, Any] = {"cmd": "create", "dtype": made.to_json(), "length": length}
    if lengths:
        command["lengths"] = [[path_of(path), most] for path, most in lengths.items()]
    plan = Plan(
        uuid.uuid4().hex, made, _line(command), rows_per_chunk, chunks_per_group, program, timeout,
        keep,
    )
    # Without a partition there is still a type to ask, so there is one without rows.
    futures = [_placed(client, plan, part) for part in parts or [[]]]
    return DaskTable(plan, futures, client, retries)


def _placed(client: Client, plan: Plan, part: Any) -> Future:
    """A partition as a result of Dask, which it makes again where the worker that has it is lost.
    Scattered data would be gone."""
    import distributed
    from dask.base import is_dask_collection

    if is_dask_collection(part):
        part = client.compute(part)
    if isinstance(part, distributed.Future):
        return client.submit(_lines, part, plan, pure=False)
    return client.submit(_same, _lines(part, plan), pure=False)


def from_frame(
    frame: Frame, dtype: Optional[TypeLike] = None, **options: Any
) -> DaskTable:
    """A table of a Dask frame's partitions. Without `dtype` it has the frame's own types: each
    partition is asked for its types, since those of objects are seen in their values alone. The
    options are those of `from_parts`.
    """
    import distributed

    client: Client = options.get("client") or distributed.get_client()
    parts = client.compute(frame.to_delayed())
    if dtype is None:
        futures = [client.submit(frames.type_of, part, pure=False) for part in parts]
        dtype = reduce(_common, client.gather(futures))
    options["client"] = client
    return from_parts(dtype, parts, **options)


def _common(left: Type, right: Type) -> Type:
    """The type of rows of both partitions."""
    parts = []
    for (name, one), (_, other) in zip(left.fields(), right.fields()):
        if one.as_nullable() != other.as_nullable():
            why = "is of %s in one partition and of %s in another: give the table's dtype"
            raise NoPlace(name, why % (one, other))
        parts.append(one if one.nullable else other)
    return replace(left, children=tuple(parts))
