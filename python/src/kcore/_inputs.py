"""Reads inputs of the program and texts of its runs, for the commands that show them."""
from __future__ import annotations

import json
from typing import Any, Dict, Iterable, Iterator, List, NamedTuple, Optional, Tuple

from ._bounds import thresholds_of
from ._errors import Mismatch

#: Bytes of the longest line that an input may have.
LONGEST = 65_536


class Input:
    """Is an input of the program: its head, the names that its comments give, and the items of each batch.

    Attributes
    ----------
    profile, vertices : int
    asks : list of (int, list of int)
        How often each reader asks, and for which vertices.
    names : dict
        The name of a vertex, where a comment ``# node NUMBER NAME`` has one.
    """

    def __init__(self, data: bytes) -> None:
        self.lines = list(kept(data))
        head = [words for words in self.lines[:2]]
        if len(head) < 2 or head[0] not in ([b"kcore", b"1"], [b"kcore", b"2"]) or head[1][:1] != [b"vertices"]:
            raise ValueError("it isn't an input of the program: its first lines aren't `kcore 1` or `2`, and `vertices N`")
        self.profile, self.vertices = int(head[0][1]), int(head[1][1])
        self.begin = 2
        self.asks = []
        while self.begin < len(self.lines) and self.lines[self.begin][:1] == [b"ask"]:
            _, times, *vertices = map(int, [b"0", *self.lines[self.begin][1:]])
            self.asks.append((times, vertices))
            self.begin += 1
        self.names = names_of(data.split(b"\n"))

    def batches(self) -> Iterator[List[List[bytes]]]:
        """Yields the lines of each batch, as words, without ``batch`` and ``end``. What a refused one yields is of no
        use."""
        batch: Optional[List[List[bytes]]] = None
        for words in self.lines[self.begin:]:
            if batch is None:
                batch = []
                if words == [b"batch"]:
                    continue
            if words == [b"end"]:
                yield batch
                batch = None
            else:
                batch.append(words)
        if batch is not None:
            yield batch


def names_of(lines: Iterable[bytes]) -> Dict[int, str]:
    """Returns the names of vertices that the comments of an input give."""
    names = {}
    for line in lines:
        if line.startswith(b"# node "):
            words = line.split(b" ", 3)
            if len(words) == 4 and words[2].isdigit():
                names[int(words[2])] = _name(words[3])
    return names


def kept(data):
    """Yields the words of each line that isn't skipped. A line that is too long has none that fit."""
    pieces = data.split(b"\n")
    if not pieces[-1]:
        pieces.pop()
    for line in pieces:
        if len(line) > LONGEST:
            yield [b"too long"]
            continue
        whole = line[:-1] if line.endswith(b"\r") else line
        words = [word for word in whole.replace(b"\t", b" ").split(b" ") if word]
        if words and not words[0].startswith(b"#"):
            yield words


def _name(text):
    try:
        return str(json.loads(text))
    except ValueError:
        return text.decode("utf-8", "replace")


class Phase(NamedTuple):
    """Is a phase of a run: its kind, the edges at which nobody moves, and its groups."""

    number: int
    kind: str
    quiet: List[Tuple[int, int]]
    groups: List[Any]


class Group(NamedTuple):
    """Is a group of a run: its moves, each a vertex with the levels before and after, and the edges at its members."""

    moves: List[Tuple[int, int, int]]
    edges: List[Tuple[int, int]]


class Batch(NamedTuple):
    """Is a batch of a run: its five numbers and its phases, or the line and the reason for which it is refused."""

    counts: Optional[List[int]]
    refusal: Optional[str]
    phases: List[Phase]


class Run:
    """Is the text of a run: its batches, what its readers were told, and its levels at the end.

    Attributes
    ----------
    batches : list of Batch
        Their edges are empty until `with_edges` puts them in.
    replies : list of list of (int, int)
        For each reader the vertices and levels that it was told, in order.
    changes : dict
        For each vertex that moves: after how many groups it moved, and to which level.
    """

    def __init__(self, text: bytes) -> None:
        self.batches: List[Batch] = []
        self.replies: List[List[Tuple[int, int]]] = []
        self.changes: Dict[int, List[Tuple[int, int]]] = {}
        self.points = 0
        rows = text.split(b"\n")
        if len(rows) < 4 or rows[0] != b"kcore-run 1" or rows[-2:] != [b"end", b""]:
            raise Mismatch(f"the text isn't that of a run that came to its end: {text[:60]!r}; `kcore run 1 < INPUT` prints one")
        self.vertices = int(rows[1].split()[1])
        levels = [0] * self.vertices
        final = []
        for row in rows[2:-2]:
            words = row.split()
            if words[0] == b"group":
                numbers = list(map(int, row[6:].replace(b":", b" ").split()))
                self.points += 1
                moves = []
                for vertex, level in zip(numbers[2::2], numbers[3::2]):
                    moves.append((vertex, levels[vertex], level))
                    levels[vertex] = level
                    self.changes.setdefault(vertex, []).append((self.points, level))
                self.batches[-1].phases[-1].groups.append(Group(moves, []))
            elif words[0] == b"phase":
                self.batches[-1].phases.append(Phase(int(words[1]), words[2].decode(), [], []))
            elif words[0] == b"batch" and words[2] == b"refused":
                self.batches.append(Batch(None, b" ".join(words[3:]).decode(), []))
            elif words[0] == b"batch":
                self.batches.append(Batch(list(map(int, words[3::2])), None, []))
            elif words[0] == b"reader":
                pairs = (word.split(b"=") for word in words[2:])
                self.replies.append([(int(vertex), int(level)) for vertex, level in pairs])
            elif words[0] == b"vertex":
                final.append(words)
            else:
                raise Mismatch(f"a line that no text of a run has: {row[:60]!r}; `kcore run 1 < INPUT` prints one")
        if [int(words[3]) for words in final] != levels:
            raise Mismatch("the levels of the vertex lines aren't those to which the groups lead: was the text changed?")
        self.levels, self.rows = levels, final

    def check_bounds(self, profile: int) -> None:
        """Compares the bounds that are printed with those of the thresholds."""
        thresholds = thresholds_of(self.vertices, profile)
        for words in self.rows:
            low, est, high, _ = thresholds.bounds(int(words[3]))
            if (int(words[5]), int(words[7]), int(words[9])) != (est, low, high):
                raise Mismatch(f"vertex {int(words[1])} has other bounds than its level stands for: is the text that of this input?")

    def with_edges(self, given: Input) -> None:
        """Puts the edges of the input into the phases and groups in which they leave and come in."""
        edges: set = set()
        for number, (batch, items) in enumerate(zip(self.batches, given.batches()), 1):
            if batch.counts is None:
                continue
            removed, added = _cleaned(edges, items)
            if batch.counts[3:] != [len(removed), len(added)]:
                raise Mismatch(f"batch {number} removes {len(removed)} edges and adds {len(added)}, and the text says "
                               f"{batch.counts[3]} and {batch.counts[4]}: is the text that of this input?")
            edges = (edges - removed) | added
            for phase in batch.phases:
                place = {vertex: group for group in phase.groups for vertex, _, _ in group.moves}
                for edge in sorted(removed if phase.kind == "delete" else added):
                    group = place.get(edge[0]) or place.get(edge[1])
                    (group.edges if group else phase.quiet).append(edge)

    def explained(self, reader: int) -> List[Tuple[int, int, int]]:
        """Returns the replies of a reader, each with the earliest point that explains it after those before."""
        told: List[Tuple[int, int, int]] = []
        point = 0
        for vertex, level in self.replies[reader]:
            at = self._explains(vertex, level, point)
            if at is None:
                raise Mismatch(f"the text doesn't explain reply {len(told) + 1} of reader {reader}: was it changed? `kcore audit` says the same")
            point = at
            told.append((vertex, level, point))
        return told

    def _explains(self, vertex, level, point):
        """Returns the first point from `point` on at which the vertex is on the level."""
        here = 0
        for at, new in self.changes.get(vertex, ()):
            if at > point:
                if here == level:
                    return point
                point = at
            here = new
        return point if here == level else None


def _cleaned(edges, items):
    """Returns the edges that a batch removes and adds: the last item that touches a pair decides on it."""
    wanted = {}
    for words in items:
        numbers = [int(word) for word in words if word not in (b"+", b"-", b"x")]
        if words[0] == b"x":
            for pair in wanted:
                if numbers[0] in pair:
                    wanted[pair] = False
            wanted.update((pair, False) for pair in edges if numbers[0] in pair)
        elif numbers[0] != numbers[1]:
            wanted[min(numbers), max(numbers)] = words[0] != b"-"
    return {pair for pair, there in wanted.items() if not there and pair in edges}, \
        {pair for pair, there in wanted.items() if there and pair not in edges}
