"""The child process: one run of the program, asked line by line."""
from __future__ import annotations

import json
import os
import selectors
import shutil
import signal
import subprocess
import tempfile
import threading
import time
import weakref
from typing import IO, Any, Dict, List, Optional, Sequence, Union

from .errors import NoProgram, NotAnAnswer, SessionEnded, TooSlow

Program = Union[str, "os.PathLike[str]", Sequence[str]]
# As many bytes are read or written at a time.
PIECE = 1 << 16
# Seconds between two looks at whether a silent program has ended.
LOOK = 1.0
# Seconds that a program gets to end by itself once its input has ended.
PATIENCE = 10.0


def of_repository() -> List[str]:
    """Where the program is in the repository in which this package lies: the proved one, which the
    gate leaves, and the unproved one, which `./colscan` keeps."""
    here = os.path.dirname(os.path.realpath(__file__))
    top = os.path.normpath(os.path.join(here, "..", "..", ".."))
    proved = os.path.join(top, "crates", "colscan", "out", "colscan")
    return [proved, os.path.join(top, "unproved", "colscan")]


def find_program(program: Optional[Program] = None) -> List[str]:
    """The words that start the program: of the argument, of the environment's COLSCAN, those of
    the repository, or a `colscan` on the path, whichever is there first.

    >>> find_program(["python3", "my_program.py"])
    ['python3', 'my_program.py']
    """
    if program is None:
        program = os.environ.get("COLSCAN") or None
    if program is not None and not isinstance(program, (str, os.PathLike)):
        return [os.fspath(word) for word in program]
    if program is not None:
        found = shutil.which(os.fspath(program))
        if found is None:
            raise NoProgram("%s isn't there, or can't be run" % os.fspath(program))
        return [found]
    places = of_repository()
    found = [it for it in map(shutil.which, [*places, "colscan"]) if it]
    if not found:
        raise NoProgram(
            "no program was found: COLSCAN isn't set, neither %s nor %s is there, and no colscan "
            "is on the path. Build it at the top of the repository, by `.ci/run` with its proofs, "
            "or by `./colscan --build` without; or set COLSCAN to where it is" % tuple(places)
        )
    return found[:1]


def end(process: "subprocess.Popen[bytes]", errors: IO[bytes], owner: int) -> None:
    """Ends a process at once, with those that it started, and waits for it. In a fork it isn't
    ours to end."""
    if os.getpid() != owner:
        return
    # Only while nobody has waited for it is its number surely its own.
    if process.returncode is None:
        try:
            os.killpg(process.pid, signal.SIGKILL)
        except (ProcessLookupError, PermissionError):
            process.kill()
    process.wait()
    for pipe in (process.stdin, process.stdout, errors):
        if pipe is not None:
            try:
                pipe.close()
            except OSError:
                pass


class Session:
    """A run of the program. It takes one command at a time, and keeps one table.

    Nothing is left running behind `close()`, the end of a `with`, or the end of Python. `timeout`
    is the number of seconds for which nothing may move in either pipe.

    >>> with Session() as session:
    ...     session.ask({"cmd": "compact"})
    {'error': 19, 'name': 'NoTable'}
    """

    def __init__(self, program: Optional[Program] = None, *, timeout: float = 600.0) -> None:
        self.words = find_program(program)
        self.timeout = timeout
        self._lock = threading.Lock()
        self._rest = bytearray()
        self._errors: IO[bytes] = tempfile.TemporaryFile()
        try:
            self._process = subprocess.Popen(
                self.words,
                stdin=subprocess.PIPE,
                stdout=subprocess.PIPE,
                stderr=self._errors,
                bufsize=0,
                # A group of its own, so that an interrupt of Python's is none of the program's.
                start_new_session=True,
            )
        except OSError as error:
            self._errors.close()
            why = error.strerror or str(error)
            raise NoProgram("%s doesn't start: %s" % (self.words[0], why)) from error
        self._end = weakref.finalize(self, end, self._process, self._errors, os.getpid())
        for pipe in (self._process.stdin, self._process.stdout):
            os.set_blocking(_number(pipe), False)

    @property
    def is_open(self) -> bool:
        """Whether it can be asked.

        >>> session = Session()
        >>> session.close()
        >>> session.is_open
        False
        """
        return self._end.alive

    @property
    def pid(self) -> int:
        """The number of the process.

        >>> with Session() as session:
        ...     session.pid > 0
        True
        """
        return self._process.pid

    def ask(self, command: Dict[str, Any]) -> Dict[str, Any]:
        """Sends a command, and returns the program's answer, a refusal too.

        >>> with Session() as session:
        ...     session.ask({"cmd": "drop"})
        {'error': 18, 'name': 'BadLine'}
        """
        line = json.dumps(command, ensure_ascii=False, separators=(",", ":"))
        return self.ask_line(line.encode("utf-8"))

    def ask_line(self, line: bytes) -> Dict[str, Any]:
        """Sends a line, which may be no command, and returns the answer.

        >>> with Session() as session:
        ...     session.ask_line(b"[1")
        {'error': 18, 'name': 'BadLine'}
        """
        answer = self.answer_line(line)
        found: Dict[str, Any]
        try:
            found = json.loads(answer.decode("utf-8"))
        except (ValueError, RecursionError):
            self.kill()
            raise NotAnAnswer("a line that is no JSON", answer) from None
        is_one = isinstance(found, dict) and (found.get("ok") is True or "error" in found)
        if not is_one:
            self.kill()
            raise NotAnAnswer("a line that is no answer", answer)
        return found

    def answer_line(self, line: bytes) -> bytes:
        """Sends a line, and returns the line that the program writes, without its LF.

        >>> with Session() as session:
        ...     session.answer_line(b"[1")
        b'{"error":18,"name":"BadLine"}'
        """
        with self._lock:
            if not self.is_open:
                raise SessionEnded("the session is closed")
            try:
                return self._exchange(line.replace(b"\n", b" ") + b"\n")
            except BaseException:
                # It may be in the middle of a line, so its next answer couldn't be told.
                self.kill()
                raise

    def _exchange(self, line: bytes) -> bytes:
        """Writes and reads by turns, as either pipe may be full."""
        if self._rest:
            raise NotAnAnswer("a line that nobody asked for", bytes(self._rest))
        unsent = memoryview(line)
        with selectors.DefaultSelector() as ready:
            reads, writes = _number(self._process.stdout), _number(self._process.stdin)
            ready.register(reads, selectors.EVENT_READ)
            ready.register(writes, selectors.EVENT_WRITE)
            last = time.monotonic()
            while True:
                left = last + self.timeout - time.monotonic()
                found = ready.select(max(min(left, LOOK), 0.0))
                if not found and self._process.poll() is not None:
                    # One that it started may hold its pipes.
                    raise self._ended("before it answered")
                if not found and left <= 0:
                    raise TooSlow("the program did nothing for %g seconds" % self.timeout)
                for key, _ in found:
                    last = time.monotonic()
                    if key.fd == writes:
                        unsent = self._write(writes, unsent)
                        if not unsent:
                            ready.unregister(writes)
                    elif self._read(reads):
                        return self._taken(bool(unsent))

    def _write(self, number: int, unsent: memoryview) -> memoryview:
        try:
            return unsent[os.write(number, unsent[:PIECE]) :]
        except BlockingIOError:
            return unsent
        except BrokenPipeError:
            raise self._ended("before it had read its line") from None

    def _read(self, number: int) -> bool:
        """Whether there is a whole line now."""
        try:
            piece = os.read(number, PIECE)
        except BlockingIOError:
            return False
        if not piece:
            raise self._ended("before it answered")
        self._rest += piece
        return b"\n" in piece

    def _taken(self, is_early: bool) -> bytes:
        line, _, rest = bytes(self._rest).partition(b"\n")
        self._rest = bytearray(rest)
        if is_early:
            raise NotAnAnswer("an answer before it had its line", line)
        return line

    def _ended(self, when: str) -> SessionEnded:
        """Why there is nothing to read or write."""
        try:
            status = self._process.wait(1.0)
        except subprocess.TimeoutExpired:
            return SessionEnded("the program closed its pipes " + when)
        self._errors.seek(0)
        said = self._errors.read(2000).decode("utf-8", "replace")
        how = "with status %d" % status if status >= 0 else "by signal %d" % -status
        return SessionEnded("the program ended %s %s" % (how, when), status, said)

    def kill(self) -> None:
        """Ends the program at once. It may be called more than once.

        >>> session = Session()
        >>> session.kill()
        >>> session.kill()
        """
        self._end()

    def close(self) -> None:
        """Ends the program by the end of its input, or at once where that takes too long.

        >>> session = Session()
        >>> session.close()
        >>> session
        <Session of ..., closed>
        """
        if self.is_open and self._process.stdin is not None:
            try:
                self._process.stdin.close()
                self._process.wait(PATIENCE)
            except (OSError, subprocess.TimeoutExpired):
                pass
        self._end()

    def __enter__(self) -> "Session":
        return self

    def __exit__(self, kind: Any, error: Any, trace: Any) -> None:
        if kind is None:
            self.close()
        else:
            self.kill()

    def __repr__(self) -> str:
        how = "process %d" % self.pid if self.is_open else "closed"
        return "<Session of %s, %s>" % (" ".join(self.words), how)


def _number(pipe: Any) -> int:
    return int(pipe.fileno())
