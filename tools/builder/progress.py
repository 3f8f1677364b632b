"""A bar of progress on a terminal, for work that takes longer than a moment."""

import sys
import time

WAIT = 1.0  # seconds before the bar begins
STEP = 0.1  # seconds between two looks of the bar
WIDTH = 30


class Bar:
    """A bar on standard error. It draws nothing unless that is a terminal and the work takes long."""

    def __init__(self, label: str, total: int) -> None:
        self._label = label
        self._total = total
        self._done = 0
        self._next = time.monotonic() + WAIT if total and sys.stderr.isatty() else None
        self._drawn = False

    def add(self, size: int) -> None:
        """So many bytes more are done."""
        self._done += size
        if self._next is not None and time.monotonic() >= self._next:
            self._draw()

    def _draw(self) -> None:
        part = min(1.0, self._done / self._total)
        marks = "#" * int(part * WIDTH)
        sys.stderr.write(f"\r{self._label} [{marks:<{WIDTH}}] {int(part * 100):3}%")
        sys.stderr.flush()
        self._drawn = True
        self._next = time.monotonic() + STEP

    def end(self) -> None:
        """Take the bar away."""
        if self._drawn:
            sys.stderr.write("\r\x1b[K")
            sys.stderr.flush()
        self._next = None


class Watched:
    """A file that is read, with a bar for how much of it was read."""

    def __init__(self, file, bar: Bar) -> None:
        self._file = file
        self._bar = bar
        self.seek = file.seek

    def read(self, size: int = -1) -> bytes:
        data = self._file.read(size)
        self._bar.add(len(data))
        return data
