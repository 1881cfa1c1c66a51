"""One page that shows which chunks a scan skipped, and why: `explain(table, predicate, file)`.

The page stands alone: it loads nothing, and everything that comes from the table is put into it
as text. A bar is what the program answered to `describe`, and nothing else: where it gave no
bound, the bar is drawn as open, and where it gave those of a group of chunks, as the group's.
"""

from __future__ import annotations

import base64
import hashlib
import html
import json
import os
from dataclasses import dataclass
from pathlib import Path as File
from string import Template
from typing import TYPE_CHECKING, Any, Callable, Dict, Iterable, List, Optional, Sequence, Union

from .picture import counted, outcomes_of
from .predicates import Predicate
from .ranges import Path, Range, name_of, ranges_of, shown, visible
from .types import Type, part_at

if TYPE_CHECKING:
    from .dask import DaskTable
    from .table import Description, Known, Table

#: The height of a picture in steps, in which places of bounds are given.
STEPS = 10_000
#: The most characters of a value in a label.
LABEL = 40

#: Where a value stands, in steps.
Place = Callable[[Any], int]


@dataclass(frozen=True)
class Zone:
    """What the program said of a column of one group of chunks: a lower and an upper bound, and
    how many of its rows are null."""

    low: Optional[Known]
    high: Optional[Known]
    nulls: int
    rows: int

    def text(self) -> str:
        """As a sentence part.

        >>> from colscan.table import Known
        >>> Zone(Known(1, True), Known(9, False), 0, 3).text()
        '1 to 9 (shortened)'
        """
        if self.nulls == self.rows:
            return "null alone"
        if self.low is None and self.high is None:
            return "no bounds known"
        low, high = (_bound_text(bound) for bound in (self.low, self.high))
        return "%s to %s" % (low or "no lower bound", high or "no upper bound")


def _bound_text(bound: Optional[Known]) -> Optional[str]:
    if bound is None:
        return None
    return label(bound.value) + ("" if bound.exact else " (shortened)")


@dataclass(frozen=True)
class Column:
    """A column of the predicate: its zones, one a group, and the predicate's ranges."""

    path: Path
    type: Type
    zones: Sequence[Zone]
    ranges: Sequence[Range]


@dataclass(frozen=True)
class Plan:
    """All that a page shows: what was asked, and what came of each chunk.

    `outcomes` has one letter a chunk: `s` for skipped, `w` for taken whole, `t` for tested."""

    where: str
    chunk_rows: Sequence[int]
    groups: Sequence[int]
    outcomes: str
    columns: Sequence[Column]
    selected: int
    rows_tested: int
    proofs: int

    def summary(self) -> str:
        """The counts in a sentence."""
        return counted(self.outcomes) + "."


def label(value: Any) -> str:
    """A value as a label, cut where it is long."""
    text = shown(value)
    return text if len(text) <= LABEL else text[: LABEL - 1] + "…"


# ---- places of values


def _scale(name: str, column: Column, place: Place, ticks: List[Any]) -> Dict[str, Any]:
    """Where all of a column stands by one way of placing values: `place(value)` is a step from 0,
    or one outside, which is drawn at the edge."""

    def step(bound: Optional[Known]) -> int:
        return -1 if bound is None else min(max(place(bound.value), 0), STEPS)

    def end(value: Any) -> Optional[int]:
        return None if value is None else min(max(place(value), 0), STEPS)

    return {
        "name": name,
        "low": [step(zone.low) for zone in column.zones],
        "high": [step(zone.high) for zone in column.zones],
        "ticks": [{"at": end(value), "text": label(value)} for value in ticks],
        "ranges": [[end(one.low), end(one.high)] for one in column.ranges],
        "ends": _ends(column.ranges, place),
    }


def _ends(ranges: Sequence[Range], place: Place) -> List[Dict[str, Any]]:
    """The values at which ranges end, each once. An arrow says that it lies beyond the picture."""
    found: Dict[Any, Dict[str, Any]] = {}
    for one in ranges:
        for value in (one.low, one.high):
            if value is None:
                continue
            at = place(value)
            arrow = "▲ " if at > STEPS else "▼ " if at < 0 else ""
            made = {"at": min(max(at, 0), STEPS), "text": arrow + label(value), "used": one.used}
            if value not in found or one.used:
                found[value] = made
    return list(found.values())


def _bounds(column: Column) -> List[Any]:
    """All bounds that are known, in order."""
    found = {bound.value for zone in column.zones for bound in (zone.low, zone.high) if bound}
    return sorted(found)


def _range_ends(column: Column) -> List[Any]:
    return [end for one in column.ranges for end in (one.low, one.high) if end is not None]


def _by_order(column: Column) -> Dict[str, Any]:
    """Values placed by their order alone, evenly."""
    known = {*_bounds(column), *_range_ends(column)}
    if column.type.kind == "bool":
        known |= {False, True}
    values = sorted(known)
    rank = {value: number for number, value in enumerate(values)}
    last = max(len(values) - 1, 1)
    some = sorted({(len(values) - 1) * part // 4 for part in range(5)}) if values else []
    return _scale("by order", column, lambda value: rank[value] * STEPS // last,
                  [values[number] for number in some])


def _by_value(column: Column) -> Dict[str, Any]:
    """Integers placed by their value. A range that ends far outside all bounds doesn't make the
    picture higher than by a quarter."""
    known: List[int] = _bounds(column) or _range_ends(column) or [0]
    low, high = min(known), max(known)
    room = max((high - low) // 4, 1)
    ends = _range_ends(column)
    low = min([low, *(max(end, low - room) for end in ends)])
    high = max([high, *(min(end, high + room) for end in ends)])
    span = max(high - low, 1)

    def place(value: Any) -> int:
        return int((value - low) * STEPS // span)

    return _scale("by value", column, place, _round_values(low, high))


def _round_values(low: int, high: int) -> List[int]:
    """Three to six round values from `low` to `high`, or fewer where there are no more.

    >>> _round_values(3, 41)
    [10, 20, 30, 40]
    """
    step = 1
    while (high - low) // step > 5:
        # 1, 2, 5, 10, 20, 50 and so on
        step = step * 5 // 2 if str(step)[0] == "2" else step * 2
    return list(range(-(-low // step) * step, high + 1, step)) or [low]


def _scales(column: Column) -> List[Dict[str, Any]]:
    """The ways of placing values that make sense for a column, the best one first."""
    if column.type.kind in ("bool", "utf8", "binary"):
        return [_by_order(column)]
    by_value = _by_value(column)
    places = sorted(step for step in [*by_value["low"], *by_value["high"]] if step >= 0)
    # Where a few outliers press nearly all bars into a line, the order shows more.
    part = len(places) // 10
    pressed = len(places) > 20 and places[-1 - part] - places[part] < STEPS // 50
    spread = [_by_order(column), by_value] if pressed else [by_value, _by_order(column)]
    return spread


# ---- the page


def _column_data(column: Column) -> Dict[str, Any]:
    return {
        "name": name_of(column.path),
        "type": str(column.type),
        "nulls": [zone.nulls for zone in column.zones],
        "rows": [zone.rows for zone in column.zones],
        "said": [zone.text() for zone in column.zones],
        "scales": _scales(column),
        "ranges": [
            {"text": one.text, "used": one.used, "nulls": one.nulls, "open": not one.has_ends}
            for one in column.ranges
        ],
    }


def _embedded(data: Any) -> str:
    """JSON that can't end the script element in which it stands, whatever texts are in it."""
    text = json.dumps(data, separators=(",", ":"))
    for letter in "<>&":
        text = text.replace(letter, "\\u%04x" % ord(letter))
    return text


def _allowed(text: str) -> str:
    """A source that a page's policy allows: this very text."""
    digest = hashlib.sha256(text.encode("utf-8")).digest()
    return "'sha256-%s'" % base64.b64encode(digest).decode("ascii")


def page(plan: Plan) -> str:
    """The page as HTML text."""
    data = {
        "where": plan.where,
        "rows": list(plan.chunk_rows),
        "groups": list(plan.groups),
        "outcomes": plan.outcomes,
        "steps": STEPS,
        # As text: a browser's numbers are not exact above 2^53.
        "all_rows": "{:,}".format(sum(plan.chunk_rows)),
        "rows_tested": "{:,}".format(plan.rows_tested),
        "selected": "{:,}".format(plan.selected),
        "proofs": "{:,}".format(plan.proofs),
        "columns": [_column_data(column) for column in plan.columns],
    }
    shape, style, script = (
        File(__file__).with_name("explain." + end).read_text(encoding="utf-8")
        for end in ("html", "css", "js")
    )
    # The page's own style and script are all that runs, even if a text in it were taken for one.
    policy = "default-src 'none'; base-uri 'none'; form-action 'none'; style-src %s; script-src %s"
    return Template(shape).substitute(
        policy=policy % (_allowed(style), _allowed(script)),
        title=html.escape("Chunks read: " + plan.where[:100]),
        summary=html.escape(plan.summary()),
        style=style,
        script=script,
        plan=_embedded(data),
    )


# ---- from a table


def _zones(table: Union[Table, DaskTable], path: Path) -> List[Zone]:
    """What is known of a column, group by group."""
    found = []
    first = 0
    for known, chunks in zip(_described(table, path), table.groups):
        rows = sum(table.chunk_rows[first : first + chunks])
        # GUIDE: the number of nulls is always there, and exact.
        nulls = known.null_count.value if known.null_count is not None else 0
        found.append(Zone(known.min, known.max, nulls, rows))
        first += chunks
    return found


def _described(table: Union[Table, DaskTable], path: Path) -> Iterable[Description]:
    """Of partitions all groups are asked for at once, as each question is a task of its own."""
    if hasattr(table, "describe_groups"):
        return table.describe_groups(path)
    return (table.describe(path, number) for number in range(len(table.groups)))


def plan_of(table: Union[Table, DaskTable], predicate: Predicate) -> Plan:
    """Runs the scan for its counts alone, and asks for the bounds of the predicate's columns."""
    answer = table.scan(predicate, paths=[])
    ranges = ranges_of(predicate.to_json(table.type))
    columns = []
    for steps in predicate.columns():
        path: Path = tuple(steps)
        part = part_at(table.type, path)
        # The scan was accepted, so the column is there.
        assert part is not None
        own = [one for one in ranges if one.path == path]
        columns.append(Column(path, part, _zones(table, path), own))
    return Plan(
        where=visible(str(predicate)),
        chunk_rows=answer.chunk_rows,
        groups=answer.groups,
        outcomes=outcomes_of(len(answer.chunk_rows), answer.skipped, answer.whole),
        columns=columns,
        selected=len(answer.rows),
        rows_tested=answer.rows_tested,
        proofs=answer.proofs,
    )


def explain(
    table: Union[Table, DaskTable], predicate: Predicate, file: Union[str, "os.PathLike[str]"]
) -> Plan:
    """Writes the page to a file, and returns what it shows.

    >>> import os, tempfile
    >>> file = os.path.join(tempfile.mkdtemp(), "x.html")
    >>> with Table.create({"a": "i32"}) as table:
    ...     _ = table.append({"a": range(8)}, rows_per_chunk=2)
    ...     plan = explain(table, col("a") > 5, file)
    >>> plan.summary()
    '4 chunks: 3 skipped, 0 taken whole, 1 tested.'
    >>> os.path.getsize(file) > 1000
    True
    """
    plan = plan_of(table, predicate)
    with open(file, "w", encoding="utf-8", newline="\n") as out:
        out.write(page(plan))
    return plan
