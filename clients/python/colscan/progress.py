"""A bar that tells how far an append is, on a terminal."""
from __future__ import annotations

import sys
import time
from typing import Any, Optional, TextIO

# Seconds between two drawings, and before the first: what is quick needs no bar.
PAUSE = 0.1
WIDTH = 30


class Progress:
    """Draws a bar on standard error while a `with` runs, and leaves no trace of it behind.

    `shows` says whether to draw at all; None says: on a terminal.
    """

    def __init__(self, name: str, total: Optional[int], shows: Optional[bool] = None) -> None:
        self.name, self.total = name, total
        self.file: TextIO = sys.stderr
        self.shows = self.file.isatty() if shows is None else shows
        self.start = self.last = time.monotonic()
        self.drawn = 0

    def at(self, done: int) -> None:
        """So many rows are done."""
        now = time.monotonic()
        if not self.shows or now - self.last < PAUSE:
            return
        self.last = now
        text = self.text(done, now - self.start)
        self.file.write("\r" + text.ljust(self.drawn))
        self.file.flush()
        self.drawn = len(text)

    def text(self, done: int, seconds: float) -> str:
        """The bar, or without a total the count.

        >>> Progress("append", 40, False).text(10, 2.0)
        'append [#######                       ] 10/40 rows, 5 rows/s'
        """
        speed = "{:,} rows/s".format(int(done / seconds)) if seconds > 0 else ""
        if not self.total:
            return "%s %s rows, %s" % (self.name, "{:,}".format(done), speed)
        filled = min(WIDTH * done // self.total, WIDTH)
        bar = "#" * filled + " " * (WIDTH - filled)
        return "%s [%s] %s rows, %s" % (
            self.name,
            bar,
            "{:,}/{:,}".format(done, self.total),
            speed,
        )

    def __enter__(self) -> "Progress":
        return self

    def __exit__(self, *_: Any) -> None:
        if self.drawn:
            self.file.write("\r" + " " * self.drawn + "\r")
            self.file.flush()
