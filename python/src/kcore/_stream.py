"""A running program that takes batches, and the levels that it prints."""
from __future__ import annotations

import json
import operator
import os
import threading
import weakref
from array import array
from itertools import chain
from typing import Any, Dict, Iterable, List, NamedTuple, Optional, Tuple, Union

from ._bounds import MOST_BYTES, MOST_ITEMS, Bounds, check_nodes, check_profile, check_workers, thresholds_of
from ._edges import check_names, ends_of, lines_of
from ._errors import BatchRefused, KcoreError, Mismatch, StreamClosed, TooManyNodes, unlike
from ._inputs import kept
from ._program import PathLike, Process, find
from ._progress import Progress
from ._text import Lines, Rows

__all__ = ["Stream", "Batch", "Phase", "Group", "Vertex"]

#: Seconds within which a program has to answer its header.
START = 60

#: Stands for all nodes.
_ALL = object()

#: What to do where the program and this package differ.
_REPORT = ("The program is proved, so go by what it prints: run it on the `record` of the stream. And report the fault of "
           "the package, with that record")

#: Bytes of a name in a record.
LONGEST_NAME = 200


class Group(NamedTuple):
    """Is a group of nodes that moved together: no state in between has one on its new level and another on its old one.

    Attributes
    ----------
    number : int
        How many groups moved before it in this stream, and one. So it numbers the states of the history.
    phase : int
        The number of its phase.
    label : hashable
        Its first node, in the order in which the stream numbered them.
    moves, before : dict
        Node to the level after the move, and to that before it.
    """

    number: int
    phase: int
    label: Any
    moves: Dict[Any, int]
    before: Dict[Any, int]


class Phase(NamedTuple):
    """Is one step of a batch: `kind` is ``"delete"`` where edges leave, and ``"insert"`` where edges come in.

    `quiet` is the number of its edges at which no node moves. Phases have numbers from 1 over the whole stream.
    """

    number: int
    kind: str
    quiet: int
    groups: Tuple[Group, ...]


class Batch(NamedTuple):
    """Is what became of a batch.

    Attributes
    ----------
    number : int
        The number of the batch in its stream, counted from 1.
    loops, repeats, idle : int
        How many items were between a node and itself, were followed by another for the same two nodes, and asked for
        what was so already.
    removed, added : int
        How many edges left, and how many came in.
    phases : tuple of Phase
        What happened: at most one phase in which edges leave, and then at most one in which edges come in.
    pieces : tuple of Batch
        The batches into which it was cut, if it was; its numbers are then their sums.
    """

    number: int
    loops: int
    repeats: int
    idle: int
    removed: int
    added: int
    phases: Tuple[Phase, ...]
    pieces: Tuple[Any, ...] = ()

    @property
    def groups(self) -> Tuple[Group, ...]:
        """All groups, in the order in which they moved."""
        return tuple(group for phase in self.phases for group in phase.groups)

    @property
    def moved(self) -> int:
        """How many moves there were."""
        return sum(len(group.moves) for phase in self.phases for group in phase.groups)


class Vertex(NamedTuple):
    """Is the line of a node at the end of a stream.

    Attributes
    ----------
    level, est, low, high : int
        As in `Bounds`.
    up, down : int
        How many neighbours are on its level or above, and on the level below it or above that.
    """

    level: int
    est: int
    low: int
    high: int
    up: int
    down: int

    @property
    def bounds(self) -> Bounds:
        """The bounds for which its level stands."""
        return Bounds(self.low, self.est, self.high, self.level)


class Stream:
    """Is a running program that takes batches of insertions and deletions of edges.

    It begins with no edges. Each batch takes effect as a whole, and `level`, `bounds` and `levels` tell how things
    stand after the last batch that did. Leave it by `close`, or use it in a ``with`` statement: then the program
    prints a line for each node, which is compared with all that was kept, and `result` has these lines.

    Threads may share a stream. `apply`, `isolate`, `apply_lines` and `close` take turns. `level`, `bounds`, `levels`
    and `nodes` don't wait for a batch that is being applied: they tell the state before it or after it, never one in
    between.

    Parameters
    ----------
    nodes : int or iterable
        How many nodes there may be at most, 1 to 16,777,216; or all nodes, as a graph or list. Their number is fixed
        for a run, and the bounds get a little wider with it.
    workers : int, optional
        Threads of the program, 1 to 64. What is printed is the same for any number.
    profile : int, optional
        2: the coreness is at most twice the estimate, and nodes can be isolated. 1: at most three times, with fewer
        levels.
    program : path, optional
        The program; see `kcore.program`.
    progress : bool, optional
        Whether to show batches, edges, moved nodes and the time. If not given: on a terminal, for a call that takes
        longer than a second.
    record : path, optional
        A file for all batches, as an input of the program. ``python -m kcore view`` makes a page of it.

    Attributes
    ----------
    program : Program
        The program that runs, and where it was found.
    edge_count : int
        The number of edges after the last batch.
    batches, moved : int
        The number of batches that were sent, and the number of moves of nodes in all of them.

    Examples
    --------
    >>> with kcore.Stream(nodes=100) as stream:
    ...     batch = stream.apply(add=[("ann", "bob"), ("bob", "cy"), ("cy", "ann")])
    ...     print(batch.added, batch.moved, stream.bounds("ann"))
    ...     batch = stream.apply(remove=[("ann", "bob")], add=[("cy", "dee")])
    ...     print(batch.removed, batch.added, stream.levels())
    3 3 Bounds(low=1, est=2, high=3, level=27)
    1 1 {'ann': 27, 'bob': 27, 'cy': 27, 'dee': 1}
    >>> stream.result["cy"]
    Vertex(level=27, est=2, low=1, high=3, up=2, down=2)
    """

    def __init__(self, nodes: Union[int, Iterable[Any]], *, workers: int = 1, profile: int = 2,
                 program: Optional[PathLike] = None, progress: Optional[bool] = None,
                 record: Optional[PathLike] = None) -> None:
        check_profile(profile)
        check_workers(workers)
        self._most, names = _nodes_of(nodes)
        check_nodes(self._most)
        self.profile, self.workers = profile, workers
        self.program = find(program)
        self._names, self._number = names, dict(zip(names, range(len(names))))
        # Whether each node is its own number, so that lines with numbers can be applied.
        self._plain = isinstance(nodes, range) and nodes == range(len(nodes))
        self._levels = array("H", bytes(2 * self._most))
        self._thresholds = thresholds_of(self._most, profile)
        # `_calls` is held while a batch is applied, and `_state` for the moment in which names and levels change.
        self._calls, self._state = threading.RLock(), threading.Lock()
        self.edge_count = self.batches = self.moved = 0
        self._groups, self._refused = 0, False
        self._result: Optional[Dict[Any, Vertex]] = None
        # Why the stream is closed, if it is.
        self._ended: Optional[str] = None
        self._wanted = progress
        self._shown = Progress(True) if progress else None
        head = b"kcore %d\nvertices %d\n" % (profile, self._most)
        # The number of the last batch that the program has, markers too, and the lines and bytes that it has.
        self._last = self._lines = self._bytes = 0
        self._record = _Record(record, head, names) if record is not None else None
        self._process = Process(self.program, ["run", workers], apart=True)
        # A stream that is forgotten or left open at the end of Python ends its program.
        self._let_go = weakref.finalize(self, _end, self._process, self._record, os.getpid())
        try:
            answer = self._exchange(head, 2, START)
            if answer != b"kcore-run 1\nvertices %d\n" % self._most:
                raise unlike(f"{answer[:100]!r}, where a text begins with `kcore-run 1` and `vertices {self._most}`")
        except BaseException:
            self._give_up("it didn't begin")
            raise

    def __repr__(self) -> str:
        state = "closed" if self._ended else "open"
        return (f"<kcore.Stream {state}: {len(self._names)} of {self._most} nodes, {self.edge_count} edges, "
                f"{self.batches} batches, profile {self.profile}, {self.program}>")

    def __enter__(self) -> Stream:
        return self

    def __exit__(self, kind: Any, fault: Any, trace: Any) -> None:
        if kind is None:
            self.close()
        else:
            self._give_up("an exception left its `with` statement")

    def apply(self, add: Any = None, remove: Any = None, isolate: Optional[Iterable[Any]] = None, *,
              cut: bool = False) -> Batch:
        """Applies a batch, and returns when it has taken effect.

        Nodes in `isolate` lose all edges, then the edges in `remove` leave, and then those in `add` come in. So an
        edge that is in both of the last two is there afterwards.

        Parameters
        ----------
        add, remove : optional
            Edges in any form that `core_number` takes. The nodes of a graph are known from then on, those without
            edges too.
        isolate : iterable of nodes, optional
            Only in profile 2.
        cut : bool, optional
            Whether more than 1,048,576 items are cut into several batches, each of which takes effect as a whole. If
            not, they are refused.

        Returns
        -------
        Batch

        Raises
        ------
        BatchRefused
            If the batch is refused. It changed nothing, and the stream goes on. Of a batch that is cut, the pieces
            before the refused one took effect; they are the exception's `applied`.
        TooManyNodes
            If there would be more nodes than the stream was opened for. Nothing was sent.
        ProgramEnded
            If the program ended. The stream is closed.
        StreamClosed
            If it was closed before.

        Examples
        --------
        >>> with kcore.Stream(nodes=3) as stream:
        ...     batch = stream.apply(add=[(0, 1), (1, 0), (2, 2)])
        >>> batch.loops, batch.repeats, batch.added
        (1, 1, 1)
        >>> batch.groups
        (Group(number=1, phase=1, label=0, moves={0: 1, 1: 1}, before={0: 0, 1: 0}),)
        """
        known, coming = ends_of(add)
        also, leaving = ends_of(remove)
        if isinstance(isolate, (str, bytes)):
            raise ValueError("`isolate` is a list of nodes, and not a text")
        alone = list(isolate) if isolate is not None else []
        if alone and self.profile != 2:
            raise ValueError("nodes are isolated only in profile 2")
        with self._calls:
            self._check_open()
            fresh = self._fresh(chain(known, also, alone, leaving, coming))
            number = self._numbers(fresh)
            parts = ((b"x %d\n", 1, number(alone)), (b"- %d %d\n", 2, number(leaving)), (b"%d %d\n", 2, number(coming)))
            total = len(alone) + (len(leaving) + len(coming)) // 2
            if total <= MOST_ITEMS:
                return self._apply(b"".join(lines_of(*part) for part in parts), total, fresh)
            if not cut:
                raise BatchRefused("too-many", self.batches + 1, MOST_ITEMS + 1, MOST_ITEMS, sent=False)
            pieces: List[Batch] = []
            for items, size in _cut(parts):
                try:
                    pieces.append(self._apply(items, size, fresh))
                except BatchRefused as refusal:
                    refusal.applied = _sum(pieces) if pieces else None
                    raise
                fresh = {}
            return _sum(pieces)

    def isolate(self, *nodes: Any) -> Batch:
        """Takes all edges of some nodes out, as a batch, and returns that. Only in profile 2.

        Examples
        --------
        >>> with kcore.Stream(nodes=3) as stream:
        ...     _ = stream.apply(add=[(0, 1), (1, 2)])
        ...     stream.isolate(1).removed
        2
        """
        return self.apply(isolate=nodes)

    def apply_lines(self, data: bytes) -> Batch:
        """Applies a batch that is given as the lines of its items, as they stand in an input of the program.

        The lines name nodes by numbers. So the stream has to be opened with ``nodes=range(n)``: each node is its own
        number.

        Parameters
        ----------
        data : bytes
            The lines between ``batch`` and ``end``.

        Returns
        -------
        Batch

        Raises
        ------
        BatchRefused
            With the reason that the program prints, the line of `data` and the number of the item.
        ValueError
            If nodes have other names than their numbers, or a line ``end`` would end the batch.

        Examples
        --------
        >>> stream = kcore.Stream(nodes=range(3))
        >>> stream.apply_lines(b"0 1\\n1 2\\n").added
        2
        >>> try:
        ...     stream.apply_lines(b"- 0 1\\n0 3\\n")
        ... except kcore.BatchRefused as refusal:
        ...     print(refusal)
        batch 2 is refused at line 2 of its items: bad-vertex, the item names a vertex that isn't there
        >>> stream.level(2)
        1
        >>> stream.close()[1].down
        2
        """
        if not self._plain:
            raise ValueError("lines name nodes by numbers: open the stream with nodes=range(n)")
        data = bytes(data)
        if data and not data.endswith(b"\n"):
            data += b"\n"
        if any(line.split() == [b"end"] for line in data.split(b"\n") if b"end" in line and len(line) <= 65_536):
            raise ValueError("a line `end` would end the batch")
        with self._calls:
            self._check_open()
            try:
                return self._apply(data, data.count(b"\n"), {})
            except BatchRefused as refusal:
                if refusal.line is not None:
                    # Comments and empty lines are no items.
                    refusal.item = sum(1 for _ in kept(b"\n".join(data.split(b"\n")[:refusal.line - 1])))
                raise

    def level(self, node: Any) -> int:
        """Returns the level of a node after the last batch. Raises KeyError if no batch has named it."""
        with self._state:
            return self._levels[self._number[node]]

    def levels(self) -> Dict[Any, int]:
        """Returns the level of each node after the last batch, as a dict."""
        with self._state:
            return dict(zip(self._names, self._levels))

    def bounds(self, node: Any = _ALL) -> Any:
        """Returns the `Bounds` of the coreness of a node after the last batch; without a node, a dict of all.

        Raises KeyError if no batch has named the node.
        """
        if node is not _ALL:
            return self._thresholds.bounds(self.level(node))
        levels = self.levels()
        of = {level: self._thresholds.bounds(level) for level in set(levels.values())}
        return {node: of[level] for node, level in levels.items()}

    @property
    def nodes(self) -> List[Any]:
        """The nodes that were named so far, in the order in which they were."""
        with self._state:
            return list(self._names)

    def close(self) -> Dict[Any, Vertex]:
        """Ends the stream, compares all that was kept with the lines that the program prints, and returns these.

        Closes once: a second call returns the same.

        Returns
        -------
        dict
            Node to `Vertex`, as `result` has it.

        Raises
        ------
        Mismatch
            If a level or bound differs from the printed one.
        ProgramEnded
            If the program ended before all was printed.
        """
        with self._calls:
            if self._ended is None:
                try:
                    self._result = self._finish()
                    self._ended = "`close` was called, or its `with` statement ended"
                except KcoreError as fault:
                    self._give_up(str(fault))
                    raise
                finally:
                    self._give_up("its end was interrupted")
            if self._result is None:
                raise StreamClosed(f"the stream came to no result, since {self._ended}. `levels` and `bounds` still tell how "
                                   "things stood after its last batch")
            return self._result

    @property
    def result(self) -> Dict[Any, Vertex]:
        """The lines of the nodes after the last batch, as a dict from node to `Vertex`. They are there once it is
        closed."""
        if self._ended is None:
            raise StreamClosed("the stream is open, and its result comes at its end: call `close`, which returns it, or leave "
                               "the `with` statement first")
        return self.close()

    def _check_open(self):
        if self._ended is not None:
            raise StreamClosed(f"the stream takes no more batches, since {self._ended}. To go on, open another one and add the "
                               "edges again")

    def _fresh(self, names):
        """Returns the names that have no number yet, each with the one that it gets."""
        known = self._number
        fresh = [name for name in dict.fromkeys(names) if name not in known]
        if len(known) + len(fresh) > self._most:
            raise TooManyNodes(f"{len(known) + len(fresh):,} nodes in a stream that was opened for {self._most:,}: `nodes=` is the most "
                               "that there may be, so open one with more")
        check_names(fresh)
        return dict(zip(fresh, range(len(known), self._most)))

    def _numbers(self, fresh):
        """Returns a function from names to their numbers."""
        known = self._number
        if not fresh:
            return lambda names: list(map(known.__getitem__, names))
        return lambda names: [known[name] if name in known else fresh[name] for name in names]

    def _apply(self, items, count, fresh):
        """Sends a batch and reads what became of it. The names in `fresh` are known afterwards, if it isn't refused."""
        line = self._lines
        data = b"batch\n" + items + b"end\n"
        # The marker and a line of the next batch fit too.
        if self._bytes + len(data) + 32 > MOST_BYTES:
            raise BatchRefused("input-limit", self.batches + 1, sent=False)
        if self._record:
            self._record.add(data, fresh)
        shown = self._shown or Progress(self._wanted)
        shown.say(f"batch {self.batches + 1:,}", f"{count:,} items")
        try:
            answer = self._exchange(data, count + 2)
            self.batches += 1
            batch = self._read(answer, line, count, fresh)
        except BatchRefused:
            raise
        except KcoreError as fault:
            self._give_up(str(fault))
            raise
        except BaseException:
            self._give_up("a call was interrupted")
            raise
        finally:
            shown.say(f"batches {self.batches:,}", f"edges {self.edge_count:,}", f"moved {self.moved:,}")
            if shown is not self._shown:
                shown.end()
        return batch

    def _after(self):
        return f", after {self.batches:,} batch{'es' * (self.batches != 1)}"

    def _exchange(self, data, lines, seconds=None):
        """Sends data and an empty batch after it, and returns what the program prints up to the line of that.

        The program answers while it reads, and the empty batch has a line of its own, which says that all lines
        before it have come. So every second batch of the program is one of these markers.
        """
        self._last += 2 if self._last else 1
        mark = b"\nbatch %d loops 0 repeats 0 idle 0 removed 0 added 0\n" % self._last
        blocks, tail = [], b""

        def take(block):
            nonlocal tail
            blocks.append(block)
            tail = block[-len(mark):] if len(block) >= len(mark) else (tail + block)[-len(mark):]

        data += b"batch\nend\n"
        try:
            self._process.write(data, take)
        except BrokenPipeError:
            raise self._process.ending(self._after()) from None
        self._lines += lines + 2
        self._bytes += len(data)
        while tail != mark:
            block = self._process.read(seconds)
            if not block:
                raise self._process.ending(self._after())
            take(block)
        return b"".join(blocks)[:1 - len(mark)]

    def _read(self, answer, line, count, fresh):
        """Reads the lines of a batch, and keeps its levels."""
        rows = answer.splitlines()
        words = rows[0].split() if rows else []
        if len(words) not in (6, 12) or words[0] != b"batch" or int(words[1]) != self._last - 1:
            raise unlike(f"{answer[:100]!r}, where the line of batch {self._last - 1} is due")
        if words[2] == b"refused":
            self._refused = True
            # (the line `batch` stands after those that were sent before; at the line `end` a batch is refused as a whole)
            at = int(words[4]) - line - 2
            raise BatchRefused(words[5].decode(), self.batches, *((at + 1, at) if 0 <= at < count else ()))
        names, levels = self._names + list(fresh) if fresh else self._names, self._levels
        now, phases, number = {}, [], self._groups
        name_of, level_of = names.__getitem__, levels.__getitem__
        for row in rows[1:]:
            if row.startswith(b"group ") and phases:
                number += 1
                phase, label, *pairs = map(int, row[6:].replace(b":", b" ").split())
                moving, after = pairs[::2], pairs[1::2]
                # In one phase each node moves at most once, so that only a second phase finds in `now` what the first put there.
                before = map(level_of, moving) if len(phases) == 1 else [now.get(v, levels[v]) for v in moving]
                nodes = moving if self._plain else list(map(name_of, moving))
                group = Group(number, phase, names[label], dict(zip(nodes, after)), dict(zip(nodes, before)))
                now.update(zip(moving, after))
                phases[-1][3].append(group)
            elif row.startswith(b"phase "):
                _, phase, kind, _, quiet = row.split()
                phases.append((int(phase), kind.decode(), int(quiet), []))
            else:
                raise unlike(f"{row[:100]!r}, where the line of a phase or group is due")
        phases = tuple(Phase(phase, kind, quiet, tuple(groups)) for phase, kind, quiet, groups in phases)
        batch = Batch(self.batches, *map(int, words[3::2]), phases)
        with self._state:
            self._names.extend(fresh)
            self._number.update(fresh)
            for vertex, level in now.items():
                levels[vertex] = level
            self.edge_count += batch.added - batch.removed
            self.moved += batch.moved
            self._groups = number
        return batch

    def _finish(self):
        """Ends the program's input, and compares the lines of the vertices with what was kept."""
        process = self._process
        process.close_source()
        rows = Rows(b"vertex", 14, 3, 5, 7, 9, 11, 13)
        ends = []

        def take(lines):
            if ends:
                raise unlike(f"{lines[:60]!r} after the line `end`")
            if lines == b"end\n" or lines.endswith(b"\nend\n"):
                ends.append(True)
                lines = lines[:-4]
            if lines:
                rows(lines)

        lines = Lines(take)
        for block in iter(process.read, b""):
            lines(block)
        status = process.wait()
        if not ends or lines.rest or status != (1 if self._refused else 0):
            raise process.ending(f"{self._after()} and {rows.count:,} of {self._most:,} lines of vertices")
        levels, est, low, high, up, down = rows.columns
        if array("H", levels) != self._levels:
            differ = next(v for v in range(self._most) if rows.count <= v or levels[v] != self._levels[v])
            raise self._differs(differ, levels[differ] if differ < rows.count else None)
        for level, *printed in set(zip(levels, low, est, high)):
            if self._thresholds.bounds(level)[:3] != tuple(printed):
                raise Mismatch(f"the program prints est, low, high {printed} for level {level}, and this package told "
                               f"{self._thresholds.bounds(level)}: bounds of this stream may be wrong. {_REPORT}")
        return dict(zip(self._names, map(Vertex, levels, est, low, high, up, down)))

    def _differs(self, number, printed):
        """Returns the exception for a node whose level isn't the one that is printed."""
        name = repr(self._names[number]) if number < len(self._names) else f"number {number}, which has no name,"
        return Mismatch(f"node {name} is on level {printed} by the program, and this package kept {self._levels[number]}: "
                        f"levels and bounds of this stream may be wrong. {_REPORT}")

    def _give_up(self, why):
        """Lets go of the program, and ends it if it runs. Notes why, if nothing was noted."""
        self._ended = self._ended or why
        if self._shown:
            self._shown.end()
        self._let_go()


def _nodes_of(nodes):
    """Returns how many nodes there may be, and the nodes that are known from the start."""
    try:
        return operator.index(nodes), []
    except TypeError:
        if isinstance(nodes, (str, bytes)) or getattr(nodes, "ndim", 1) != 1:
            raise ValueError("`nodes` is a number, or a list or graph of all nodes, and not a text, a table or a matrix") from None
        names = list(dict.fromkeys(nodes.nodes if hasattr(nodes, "nodes") else nodes))
        check_names(names)
        return len(names), names


def _cut(parts):
    """Yields the items of a batch in pieces that the program takes: their lines, and how many they are."""
    lines, room = [], MOST_ITEMS
    for form, width, numbers in parts:
        start = 0
        while start < len(numbers):
            stop = min(len(numbers), start + width * room)
            lines.append(lines_of(form, width, numbers[start:stop]))
            room -= (stop - start) // width
            start = stop
            if not room:
                yield b"".join(lines), MOST_ITEMS
                lines, room = [], MOST_ITEMS
    if lines:
        yield b"".join(lines), MOST_ITEMS - room


def _sum(pieces):
    """Returns the batch that stands for the pieces of one that was cut."""
    counts = [sum(piece[place] for piece in pieces) for place in range(1, 6)]
    return Batch(pieces[0].number, *counts, tuple(chain.from_iterable(piece.phases for piece in pieces)), tuple(pieces))


def _end(process, record, owner):
    """Ends the program, unless this is a copy of the process that started it."""
    if os.getpid() == owner:
        process.kill()
        if record:
            record.close()


class _Record:
    """Is a file with the batches of a stream, as an input of the program. Names of nodes stand in comments."""

    def __init__(self, path, head, names):
        self.file = open(path, "wb", buffering=0)
        try:
            self._write(head)
            self.add(b"", dict(zip(names, range(len(names)))))
        except BaseException:
            self.file.close()
            raise

    def add(self, data, fresh):
        """Writes a batch after its names. If that fails nothing of it stays, where the file can be cut."""
        notes = []
        for name, number in fresh.items():
            if name is not number and name != number:
                notes.append(f"# node {number} {json.dumps(str(name)[:LONGEST_NAME])}\n".encode("ascii"))
        self._write(b"".join(notes) + data)

    def _write(self, data):
        try:
            start = self.file.tell()
        except OSError:
            start = None
        rest = memoryview(data)
        try:
            while rest:
                rest = rest[self.file.write(rest):]
        except BaseException:
            if start is not None:
                try:
                    self.file.seek(start)
                    self.file.truncate()
                except OSError:
                    pass
            raise

    def close(self):
        self.file.close()
