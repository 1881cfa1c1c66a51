"""The child process: each way in which it can fail, and that none is left."""
from __future__ import annotations

import gc
import os
import signal
import stat
import subprocess
import sys
import tempfile
import threading
import time
import unittest
from unittest import mock

import common
from colscan import (
    NoProgram,
    NotAnAnswer,
    Refused,
    Session,
    SessionEnded,
    Table,
    TooSlow,
    find_program,
)

OK = 'print(\'{"ok":true}\', flush=True)\n'
# Answers each line.
SERVER = "import sys\nfor line in sys.stdin:\n    " + OK
COMPACT = {"cmd": "compact"}
# More than a pipe holds.
BIG = {"cmd": "append", "text": "x" * 1_000_000}


class Failing(unittest.TestCase):
    """Programs that fail; behind each failure the process is gone and the session is closed."""

    def failure(self, code: str, command: object, kind: type, timeout: float = 10.0) -> Exception:
        session = Session(common.python(code), timeout=timeout)
        start = time.monotonic()
        with self.assertRaises(kind) as caught:
            session.ask(command)  # type: ignore[arg-type]
        self.assertLess(time.monotonic() - start, timeout + 5)
        self.assertFalse(common.is_running(session.pid))
        self.assertFalse(session.is_open)
        with self.assertRaises(SessionEnded):
            session.ask(COMPACT)
        return caught.exception

    def test_it_ends_at_once(self) -> None:
        error = self.failure("pass", COMPACT, SessionEnded)
        self.assertEqual(error.status, 0)  # type: ignore[attr-defined]

    def test_it_ends_with_a_status_and_words(self) -> None:
        code = "import sys\nsys.stdin.readline()\nsys.exit('no more')"
        error = self.failure(code, COMPACT, SessionEnded)
        self.assertEqual((error.status, error.said), (1, "no more\n"))  # type: ignore
        self.assertIn("status 1", str(error))
        self.assertIn("no more", str(error))

    def test_it_ends_by_a_signal(self) -> None:
        error = self.failure("import os\nos.kill(os.getpid(), 9)", COMPACT, SessionEnded)
        self.assertIn("by signal 9", str(error))

    def test_it_ends_in_the_middle_of_an_answer(self) -> None:
        self.failure("print('{\"ok\":', end='', flush=True)", COMPACT, SessionEnded)

    def test_the_pipe_breaks_in_the_middle_of_a_line(self) -> None:
        code = "import os, time\nos.read(0, 10)\nos.close(0)\nos.close(1)\ntime.sleep(60)"
        error = self.failure(code, BIG, SessionEnded)
        self.assertIn("closed its pipes", str(error))

    def test_it_ends_in_the_middle_of_a_long_line(self) -> None:
        self.failure("import os\nos.read(0, 10)", BIG, SessionEnded)

    def test_it_ends_and_one_that_it_started_does_not(self) -> None:
        code = "import subprocess\nsubprocess.Popen(['sleep', '60'])"
        self.failure(code, COMPACT, SessionEnded)

    def test_one_that_it_started_is_ended_too(self) -> None:
        code = "import subprocess, sys\nchild = subprocess.Popen(['sleep', '60'])\n"
        code += "for line in sys.stdin: print('{\"ok\":true,\"pid\":%d}' % child.pid, flush=True)"
        with self.assertRaises(ZeroDivisionError):
            with Session(common.python(code), timeout=10.0) as session:
                pid = session.ask(COMPACT)["pid"]
                1 / 0
        end = time.monotonic() + 10
        # Who ends its parent's processes takes a while to wait for them.
        while is_alive(pid) and time.monotonic() < end:
            time.sleep(0.05)
        self.assertFalse(is_alive(pid))

    def test_no_json(self) -> None:
        error = self.failure("input()\nprint('hello', flush=True)\ninput()", COMPACT, NotAnAnswer)
        self.assertIn("no JSON", str(error))
        self.assertIn("hello", str(error))

    def test_no_utf8(self) -> None:
        code = "import os\ninput()\nos.write(1, b'\\xff\\n')\ninput()"
        self.failure(code, COMPACT, NotAnAnswer)

    def test_json_that_is_no_answer(self) -> None:
        for text in ("[1]", "7", '{"ok":false}', "{}"):
            with self.subTest(text):
                code = "input()\nprint(%r, flush=True)\ninput()" % text
                self.failure(code, COMPACT, NotAnAnswer)

    def test_nested_too_deep(self) -> None:
        code = "input()\nprint('[' * 100000, flush=True)\ninput()"
        self.failure(code, COMPACT, NotAnAnswer)

    def test_a_line_too_many(self) -> None:
        session = Session(common.python("input()\n" + OK + OK + "input()"), timeout=10.0)
        with session:
            self.assertEqual(session.ask(COMPACT), {"ok": True})
            with self.assertRaises(NotAnAnswer):
                time.sleep(0.2)
                session.ask(COMPACT)
                session.ask(COMPACT)
        self.assertFalse(common.is_running(session.pid))

    def test_it_echoes(self) -> None:
        # It writes while it reads, so who only writes would wait for ever.
        self.failure("import os\nwhile True: os.write(1, os.read(0, 9999))", BIG, NotAnAnswer)

    def test_it_writes_without_an_end(self) -> None:
        code = "import sys\nwhile True: sys.stdout.write('xxxxxxxxxxxxxxxx\\n')"
        self.failure(code, BIG, NotAnAnswer)

    def test_it_never_answers(self) -> None:
        self.failure("import time\ntime.sleep(60)", COMPACT, TooSlow, timeout=0.5)

    def test_it_never_reads(self) -> None:
        self.failure("import time\ntime.sleep(60)", BIG, TooSlow, timeout=0.5)

    def test_an_interrupt(self) -> None:
        session = Session(common.python("import time\ntime.sleep(60)"), timeout=20.0)
        before = signal.signal(signal.SIGINT, signal.default_int_handler)
        timer = threading.Timer(0.5, os.kill, (os.getpid(), signal.SIGINT))
        timer.start()
        try:
            with self.assertRaises(KeyboardInterrupt):
                session.ask(COMPACT)
        finally:
            timer.cancel()
            timer.join()
            signal.signal(signal.SIGINT, before)
        self.assertFalse(common.is_running(session.pid))

    def test_much_on_standard_error(self) -> None:
        code = "import sys\nsys.stderr.write('x' * 1000000)\nsys.stderr.flush()\n" + SERVER
        with Session(common.python(code), timeout=10.0) as session:
            self.assertEqual(session.ask(COMPACT), {"ok": True})


def is_alive(pid: int) -> bool:
    """Whether a process runs; one that ended, for which nobody waited yet, doesn't."""
    try:
        with open("/proc/%d/stat" % pid, encoding="ascii") as file:
            return file.read().rsplit(")", 1)[1].split()[0] != "Z"
    except OSError:
        return False


class Starting(unittest.TestCase):
    def test_not_there(self) -> None:
        with self.assertRaises(NoProgram) as caught:
            Session("/nowhere/colscan")
        self.assertIn("/nowhere/colscan", str(caught.exception))
        with self.assertRaises(NoProgram):
            Session(["/nowhere/colscan"])

    def test_no_program(self) -> None:
        with tempfile.TemporaryDirectory() as folder:
            path = os.path.join(folder, "colscan")
            with open(path, "wb") as file:
                file.write(b"\x00 no program")
            with self.assertRaises(NoProgram):
                Session(path)
            os.chmod(path, stat.S_IRWXU)
            with self.assertRaises(NoProgram) as caught:
                Session(path)
            self.assertIn("doesn't start", str(caught.exception))

    def test_order(self) -> None:
        with tempfile.TemporaryDirectory() as folder:
            paths = []
            for name in ("given", "environment", "proved", "unproved", "colscan"):
                paths.append(os.path.join(folder, name))
                with open(paths[-1], "wb") as file:
                    file.write(b"#!/bin/sh\n")
                os.chmod(paths[-1], stat.S_IRWXU)
            given, environment, proved, unproved, on_path = paths
            with mock.patch.dict(os.environ, {"COLSCAN": environment, "PATH": folder}):
                built = [proved, unproved]
                with mock.patch("colscan.process.of_repository", return_value=built):
                    self.assertEqual(find_program(given), [given])
                    self.assertEqual(find_program(), [environment])
                    os.environ["COLSCAN"] = ""
                    for it in built:
                        self.assertEqual(find_program(), [it])
                        os.remove(it)
                    self.assertEqual(find_program(), [on_path])
                    os.remove(on_path)
                    with self.assertRaises(NoProgram) as caught:
                        find_program()
        for word in (".ci/run", "./colscan --build", "COLSCAN"):
            self.assertIn(word, str(caught.exception))


class NoneLeft(unittest.TestCase):
    def test_behind_with(self) -> None:
        with Session(timeout=common.TIMEOUT) as session:
            self.assertTrue(common.is_running(session.pid))
        self.assertFalse(common.is_running(session.pid))

    def test_behind_an_exception(self) -> None:
        with self.assertRaises(ZeroDivisionError):
            with Table.create({"a": "i32"}, timeout=common.TIMEOUT) as table:
                1 / 0
        self.assertFalse(common.is_running(table.session.pid))

    def test_behind_a_refused_create(self) -> None:
        made = []
        start = Session.__init__

        def spy(self: Session, *words: object, **more: object) -> None:
            start(self, *words, **more)  # type: ignore[arg-type]
            made.append(self)

        with mock.patch.object(Session, "__init__", spy):
            with self.assertRaises(Refused):
                Table.create({"a": "i32"}, lengths={"z": 1}, timeout=common.TIMEOUT)
        self.assertFalse(common.is_running(made[0].pid))

    def test_that_nobody_closes(self) -> None:
        table = Table.create({"a": "i32"}, timeout=common.TIMEOUT)
        pid = table.session.pid
        del table
        gc.collect()
        self.assertFalse(common.is_running(pid))

    def test_that_takes_long_to_end(self) -> None:
        code = SERVER + "import time\ntime.sleep(60)"
        with mock.patch("colscan.process.PATIENCE", 0.3):
            with Session(common.python(code), timeout=10.0) as session:
                session.ask(COMPACT)
        self.assertFalse(common.is_running(session.pid))

    def test_behind_python(self) -> None:
        ends = ("", "sys.exit(3)", "1 / 0", "os.kill(os.getpid(), 9)")
        for last in ends:
            with self.subTest(last):
                code = "import os, sys\nfrom colscan import Table\nt = Table.create({'a': 'i32'})\n"
                code += "print(t.session.pid, flush=True)\n" + last
                run = subprocess.run(
                    [sys.executable, "-c", code],
                    stdout=subprocess.PIPE,
                    stderr=subprocess.DEVNULL,
                    timeout=common.TIMEOUT,
                    env={**os.environ, "PYTHONPATH": common.CLIENT},
                )
                self.gone(int(run.stdout))

    def gone(self, pid: int) -> None:
        """It ends by the end of its input, which a killed Python leaves, so it may take a while."""
        end = time.monotonic() + 10
        while common.is_running(pid) and time.monotonic() < end:
            time.sleep(0.05)
        self.assertFalse(common.is_running(pid))

    def test_a_fork_ends_nothing(self) -> None:
        with Table.create({"a": "i32"}, timeout=common.TIMEOUT) as table:
            child = os.fork()
            if child == 0:
                table.session.kill()
                os._exit(0)
            os.waitpid(child, 0)
            self.assertEqual(table.append([[1]]), 1)


class Asking(unittest.TestCase):
    def test_big_both_ways(self) -> None:
        texts = ["%07d" % number * 100 for number in range(500)]
        with Table.create({"s": "utf8"}, timeout=common.TIMEOUT) as table:
            table.append({"s": texts}, rows_per_chunk=len(texts))
            self.assertEqual(table.scan().columns()["s"], texts)

    def test_threads(self) -> None:
        with Table.create({"a": "i32"}, timeout=common.TIMEOUT) as table:
            work = [threading.Thread(target=table.append, args=([[at]],)) for at in range(20)]
            for it in work:
                it.start()
            for it in work:
                it.join()
            self.assertEqual(sorted(table.scan().columns()["a"]), list(range(20)))

    def test_refusals_are_answers(self) -> None:
        with Session(timeout=common.TIMEOUT) as session:
            self.assertEqual(session.ask({"cmd": "drop"}), {"error": 18, "name": "BadLine"})
            self.assertEqual(session.ask_line(b"\n"), {"error": 18, "name": "BadLine"})


if __name__ == "__main__":
    unittest.main()
