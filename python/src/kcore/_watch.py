"""Shows a run in a terminal while it goes on."""
from __future__ import annotations

import shutil
import sys
import time
from collections import deque
from typing import Any, Dict, List, NamedTuple, Optional

from ._errors import unlike
from ._program import Process, Program
from ._text import Lines

#: Seconds between two pictures of the table.
PAUSE = 0.1

#: How many of the largest groups are shown.
GROUPS = 5


class Row(NamedTuple):
    """Is what the table shows of a batch."""

    number: int
    items: int
    removed: int
    added: int
    groups: int
    moved: int
    largest: int
    refusal: Optional[str]


class Table:
    """Counts what a run prints, and shows it: on a terminal as a table that is written over, else a line for each
    batch."""

    def __init__(self, name: str, file: Any, names: Dict[int, str]) -> None:
        self.file, self.name, self.names, self.live = file, name, names, file.isatty()
        self.began = self.shown = time.monotonic()
        self.rows: deque = deque(maxlen=200)
        self.batch: Optional[List[Any]] = None
        self.largest: List[Any] = []
        self.batches = self.refused = self.changed = self.edges = self.moved = self.groups = 0
        self.vertices = self.readers = self.printed = 0
        self.ended, self.high = False, 0
        if not self.live:
            self.file.write(self._columns() + "\n")

    def lines(self, lines: bytes) -> None:
        """Takes whole lines of the text of a run."""
        for line in lines.splitlines():
            kind = line[:6]
            if kind == b"group ":
                self._group(line)
            elif kind == b"batch ":
                self._close_batch()
                self._open_batch(line.split())
            elif kind == b"vertex" or line == b"end":
                self._close_batch()
                self.ended = self.ended or line == b"end"
            elif kind == b"vertic":
                self.vertices = int(line.split()[1])
            elif kind == b"refuse":
                raise ValueError(f"{self.name} is {line.decode()}: its head isn't that of an input")
            elif kind == b"reader":
                self._close_batch()
                self.readers += 1
            elif kind not in (b"phase ", b"kcore-"):
                raise unlike(f"the line {line[:60]!r}")

    def _open_batch(self, words):
        self.batches += 1
        if words[2] == b"refused":
            self.refused += 1
            self.batch = [int(words[1]), 0, 0, 0, 0, 0, 0, b" ".join(words[3:]).decode()]
            return
        loops, repeats, idle, removed, added = map(int, words[3::2])
        self.changed += removed + added
        self.edges += added - removed
        self.batch = [int(words[1]), loops + repeats + idle + removed + added, removed, added, 0, 0, 0, None]

    def _group(self, line):
        size = line.count(b":")
        batch = self.batch
        if batch is None:
            raise unlike("a group before any batch")
        batch[4] += 1
        batch[5] += size
        batch[6] = max(batch[6], size)
        self.groups += 1
        self.moved += size
        if len(self.largest) < GROUPS or size > self.largest[-1][0]:
            label = int(line.split(b" ", 3)[2])
            self.largest = sorted(self.largest + [(size, batch[0], label)], key=lambda row: -row[0])[:GROUPS]

    def _close_batch(self):
        """Counts a batch once all its lines have come."""
        if self.batch is not None:
            row = Row(*self.batch)
            self.rows.append(row)
            self.batch = None
            if not self.live:
                self.file.write(self._line(row) + "\n")
                self.file.flush()

    def show(self, at_once: bool = False) -> None:
        """Writes the table over the last one, if that is old enough."""
        if self.live and (at_once or time.monotonic() - self.shown > PAUSE):
            self.shown = time.monotonic()
            width, height = shutil.get_terminal_size()
            text = [line[:width - 1] for line in self._picture(max(3, height - 9 - GROUPS))]
            up = f"\x1b[{self.high}A" if self.high else ""
            self.file.write(up + "".join(f"{line}\x1b[K\n" for line in text) + "\x1b[J")
            self.file.flush()
            self.high = len(text)

    def _picture(self, most):
        seconds = max(1e-9, time.monotonic() - self.began)
        rows = list(self.rows)[-most:]
        state = "ended" if self.ended else "running"
        yield f"{self.name}: {self.vertices:,} vertices, {self.edges:,} edges, {state}, {seconds:.1f} s"
        yield ""
        yield self._columns()
        yield from map(self._line, rows)
        yield ""
        yield (f"{self.batches:,} batches ({self.refused:,} refused), {self.changed / seconds:,.0f} edges a second, "
               f"{self.moved:,} vertices moved in {self.groups:,} groups")
        if self.largest:
            named = [(size, self.names.get(label, label), batch) for size, batch, label in self.largest]
            rows = [f"{size:,} with {name} in batch {batch:,}" for size, name, batch in named]
            yield "largest groups: " + ", ".join(rows)

    def _columns(self):
        return f"{'batch':>9}{'items':>11}{'removed':>11}{'added':>11}{'groups':>9}{'moved':>11}{'largest':>11}"

    def _line(self, row):
        if row.refusal is not None:
            return f"{row.number:>9,}  refused {row.refusal}"
        return (f"{row.number:>9,}{row.items:>11,}{row.removed:>11,}{row.added:>11,}{row.groups:>9,}{row.moved:>11,}"
                f"{row.largest:>11,}")

    def end(self) -> None:
        """Shows the last state, and where no table was shown the totals."""
        self._close_batch()
        if self.live:
            self.show(at_once=True)
        else:
            for line in list(self._picture(0))[-2 if self.largest else -1:]:
                self.file.write(line + "\n")
            self.file.flush()


def watch(found: Program, workers: int, source: Any, name: str, names: Dict[int, str]) -> None:
    """Runs the program on an open file, and shows its batches as it prints them.

    Raises ProgramEnded if it ends otherwise than by being done.
    """
    process = Process(found, ["run", workers], stdin=source)
    table = Table(name, sys.stdout, names)
    lines = Lines(table.lines)
    try:
        for block in iter(process.read, b""):
            lines(block)
            table.show()
        if process.wait() not in (0, 1) or not table.ended:
            raise process.ending()
        table.end()
    finally:
        process.kill()
