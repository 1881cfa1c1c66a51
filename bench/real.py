#!/usr/bin/env python3
"""Twenty predicates over a public table, here, in SQLite and in PostgreSQL with a BRIN index.

Usage: bench/real.py [PROGRAM [ROWS]]     (PROGRAM: crates/colscan/out/colscan; ROWS: the
number of rows from the first on)

The table is that of bench/characters.py: some 290,000 rows of twenty columns. Each predicate is
one string, which all three read. The rows have to be the same; the times are side by side, each
the least of RUNS: processor time of this process and of the one that is asked, from the question to
the rows as Python's lists. SQLite has the table in memory and no index, PostgreSQL in a folder that
is removed at the end, with a BRIN index whose ranges have about as many rows as a chunk has here.
"""
import contextlib
import itertools
import os
import shutil
import signal
import sqlite3
import subprocess
import sys
import tempfile
import time

HERE = os.path.dirname(os.path.abspath(__file__))
sys.dont_write_bytecode = True
sys.path[:0] = [HERE, os.path.join(HERE, "..", "clients", "python")]

import characters
from colscan import Table

CHUNK = 2000
RUNS = 5
# Seconds that a command of PostgreSQL may take.
PATIENCE = 300
NAMES = list(characters.COLUMNS)
ANSWERED = ("code", "name", "category")
PREDICATES = [
    "code = 9731",
    "code between 19968 and 20223",
    "code < 128 and category = 'Lu'",
    "name = 'SNOWMAN'",
    "name like 'GREEK SMALL LETTER %'",
    "name like '%ARROW%'",
    "name is null and code < 200000",
    "block = 'Arabic'",
    "script = 'Tibetan' and combining > 0",
    "category in ('Sc', 'Sk')",
    "age >= 150",
    "age = 11 and category = 'Nd'",
    "combining > 200 and combining < 225",
    "mirrored and category = 'Sm'",
    "decimal between 3 and 5",
    "numeric = '1/2'",
    "decomposition_kind = 'circle' and width = 'W'",
    "upper is not null and lower is not null",
    "title != upper",
    "bidi = 'AL' or bidi = 'R'",
]
SQL_TYPES = {"u8": "smallint", "u16": "integer", "u32": "bigint", "bool": "boolean"}


def definition():
    """The columns of the table in SQL."""
    parts = []
    for name, kind in characters.COLUMNS.items():
        made = SQL_TYPES.get(kind.rstrip("?"), "text")
        parts.append("%s %s%s" % (name, made, "" if kind.endswith("?") else " not null"))
    return "create table characters (%s)" % ", ".join(parts)


def question(where):
    return "select %s from characters where %s" % (", ".join(ANSWERED), where)


def processor_seconds(pid):
    """Processor time of this process and of another, which compares on a busy machine too."""
    seconds = time.process_time()
    if pid is not None:
        with open("/proc/%d/schedstat" % pid) as file:
            seconds += int(file.read().split()[0]) / 1e9
    return seconds


class Here:
    """The program, by its client in Python."""

    name = "colscan"

    def __init__(self, rows, program):
        self.table = Table.create(characters.COLUMNS, 32, program=program)
        self.pid = self.table.session.pid
        self.table.append(rows, rows_per_chunk=CHUNK, progress=False)

    def ask(self, where):
        self.answer = self.table.scan(where, paths=ANSWERED)
        return self.answer.rows

    def note(self, where):
        return "%d of %d" % (len(self.answer.skipped), len(self.table.chunk_rows))

    def close(self):
        self.table.close()


class Sqlite:
    """SQLite, with the table in memory."""

    name = "SQLite"
    # It is in this process.
    pid = None

    def __init__(self, rows, _):
        self.database = sqlite3.connect(":memory:")
        self.database.execute("pragma case_sensitive_like = on")
        self.database.execute(definition())
        marks = ", ".join("?" * len(NAMES))
        self.database.executemany("insert into characters values (%s)" % marks, rows)
        self.database.commit()

    def ask(self, where):
        return self.database.execute(question(where)).fetchall()

    def note(self, where):
        return ""

    def close(self):
        self.database.close()


class NotThere(Exception):
    pass


class Postgres:
    """A PostgreSQL server of its own, in a temporary folder and without a network."""

    name = "PostgreSQL"

    def __init__(self, rows, _):
        try:
            import psycopg2
        except ImportError:
            raise NotThere("python3-psycopg2 isn't there") from None
        self.programs = server_programs()
        self.folder = tempfile.mkdtemp(prefix="real")
        self.connection = None
        try:
            self.start()
            self.connection = psycopg2.connect(
                host=self.folder, user="bench", dbname="postgres",
                options="-c statement_timeout=%d" % (1000 * PATIENCE),
            )
            self.connection.autocommit = True
            self.pid = self.connection.get_backend_pid()
            self.cursor = self.connection.cursor()
            self.load(rows)
        except BaseException:
            self.close()
            raise

    def run(self, program, *words):
        """Runs a program of the server, as its user where we are root, which it refuses to be."""
        command = [os.path.join(self.programs, program), *words]
        if os.geteuid() == 0:
            command = ["runuser", "-u", "postgres", "--", *command]
        subprocess.run(
            command, check=True, timeout=PATIENCE, cwd=self.folder,
            stdout=subprocess.DEVNULL, stderr=subprocess.STDOUT,
        )

    def start(self):
        if os.geteuid() == 0:
            shutil.chown(self.folder, "postgres")
        data = os.path.join(self.folder, "data")
        self.run("initdb", "-D", data, "-U", "bench", "-A", "trust", "-E", "UTF8", "--locale=C",
                 "--no-sync")
        # One process does the work, as here and in SQLite, and compiles nothing.
        settings = "-c listen_addresses='' -c unix_socket_directories=%s -c fsync=off -c jit=off " \
            "-c max_parallel_workers_per_gather=0 -c shared_buffers=256MB" % self.folder
        self.run("pg_ctl", "-D", data, "-w", "-o", settings, "-l", self.folder + "/log", "start")

    def load(self, rows):
        from psycopg2.extras import execute_values

        self.cursor.execute(definition())
        execute_values(self.cursor, "insert into characters values %s", rows, page_size=CHUNK)
        self.cursor.execute("vacuum analyze characters")
        self.cursor.execute("select count(*) from characters")
        count = self.cursor.fetchone()[0]
        self.cursor.execute("select pg_relation_size('characters') / 8192")
        pages = max(1, round(self.cursor.fetchone()[0] * CHUNK / count))
        # There is no BRIN index of booleans.
        indexed = [name for name, kind in characters.COLUMNS.items() if kind != "bool"]
        words = (", ".join(indexed), pages)
        index = "create index on characters using brin (%s) with (pages_per_range = %d)"
        self.cursor.execute(index % words)
        self.cursor.execute("analyze characters")

    def ask(self, where):
        self.cursor.execute(question(where))
        return self.cursor.fetchall()

    def note(self, where):
        self.cursor.execute("explain " + question(where))
        plan = "".join(line for (line,) in self.cursor.fetchall())
        return "BRIN" if "Bitmap" in plan else "all rows"

    def close(self):
        if self.connection is not None:
            self.connection.close()
        try:
            if os.path.exists(os.path.join(self.folder, "data", "postmaster.pid")):
                self.run("pg_ctl", "-D", self.folder + "/data", "-m", "immediate", "-w", "stop")
        finally:
            shutil.rmtree(self.folder, ignore_errors=True)


def server_programs():
    """The folder of the server's programs. Debian has it on nobody's path."""
    found = shutil.which("initdb")
    if found:
        return os.path.dirname(os.path.realpath(found))
    top = "/usr/lib/postgresql"
    versions = sorted(os.listdir(top), key=float) if os.path.isdir(top) else []
    if not versions:
        raise NotThere("postgresql isn't there")
    return os.path.join(top, versions[-1], "bin")


def timed(system, where):
    """The rows, and the least seconds of several runs."""
    runs = []
    for _ in range(RUNS):
        started = processor_seconds(system.pid)
        rows = system.ask(where)
        runs.append(processor_seconds(system.pid) - started)
    return sorted(map(tuple, rows)), min(runs)


def opened(rows, program, stack):
    """The systems that are there, and a line for each: how long it took to load, or what lacks.
    The stack closes them."""
    systems = []
    for make in (Here, Sqlite, Postgres):
        started, used = time.perf_counter(), time.process_time()
        try:
            systems.append(stack.enter_context(contextlib.closing(make(rows, program))))
        except NotThere as lack:
            print("%s: not compared, %s" % (make.name, lack))
            continue
        words = (make.name, time.perf_counter() - started, processor_seconds(systems[-1].pid) - used)
        print("%s: loaded in %.1f s, %.1f of a processor" % words, flush=True)
    return systems


def compare(systems):
    """Runs all predicates, prints a line for each, and returns how many rows differed."""
    head = "".join("| %s ms " % system.name for system in systems)
    print("\n| Predicate | Rows %s| Chunks skipped | PostgreSQL reads |" % head)
    print("|---|" + "---|" * (len(systems) + 3))
    sums = [0.0] * len(systems)
    different = 0
    for where in PREDICATES:
        found = [timed(system, where) for system in systems]
        notes = [system.note(where) for system in systems]
        different += any(rows != found[0][0] for rows, _ in found)
        sums = [total + seconds for total, (_, seconds) in zip(sums, found)]
        times = "".join("| %.2f " % (1000 * seconds) for _, seconds in found)
        words = (where, len(found[0][0]), times, notes[0], notes[2] if len(notes) > 2 else "")
        print("| `%s` | %d %s| %s | %s |" % words, flush=True)
    times = "".join("| %.1f " % (1000 * seconds) for seconds in sums)
    print("| all twenty | %s| | |" % times)
    return different


def main():
    # A signal ends the program as an error does, so the server is stopped.
    signal.signal(signal.SIGTERM, lambda *_: sys.exit(1))
    if not os.path.isdir(characters.FOLDER):
        sys.exit("the package unicode-data isn't there")
    most = int(sys.argv[2]) if len(sys.argv) > 2 else None
    rows = list(itertools.islice(characters.rows(), most))
    words = (characters.version(), len(rows), len(NAMES), CHUNK)
    print("Unicode %s: %d rows, %d columns, chunks of %d rows" % words)
    with contextlib.ExitStack() as stack:
        program = sys.argv[1] if len(sys.argv) > 1 else None
        different = compare(opened(rows, program, stack))
    print("\nthe rows of %d of %d predicates were the same" % (
        len(PREDICATES) - different, len(PREDICATES)))
    sys.exit(1 if different else 0)


if __name__ == "__main__":
    main()
