"""Turns edges of any form into numbers, and into the lines that the program reads."""
from __future__ import annotations

import gzip
import operator
import os
import zlib
from collections import defaultdict
from itertools import chain, count, repeat

from ._bounds import MOST_ITEMS, MOST_NODES

__all__ = ["ends_of", "Numbered", "lines_of"]

#: Edges whose lines are written at once.
ROWS = 1 << 15


def is_graph(source):
    """Says whether it is a graph of networkx, or one with the same methods."""
    return all(hasattr(source, name) for name in ("nodes", "edges", "adjacency", "is_directed"))


def check_graph(graph):
    """Refuses a directed graph, in which networkx counts an edge in both directions twice."""
    if graph.is_directed():
        raise ValueError("the graph is directed, and here edges have no direction: pass G.to_undirected()")


def ends_of(source):
    """Returns the nodes that a source of edges names by themselves, and the ends of its edges.

    Parameters
    ----------
    source : None, graph, array, frame, mapping, path or iterable
        See `kcore.core_number`.

    Returns
    -------
    nodes : list
        All nodes of a graph or mapping. Empty for the other forms.
    ends : list
        The two ends of each edge, one edge after another.
    """
    if source is None:
        return [], []
    if is_graph(source):
        check_graph(source)
        return list(source.nodes), list(chain.from_iterable(edge[:2] for edge in source.edges))
    if isinstance(source, (str, os.PathLike)):
        return [], read_edges(source)
    if hasattr(source, "iloc") and hasattr(source, "columns"):
        return [], _of_frame(source)
    if hasattr(source, "tocoo"):
        raise ValueError("a sparse matrix is no list of edges: pass numpy.column_stack(matrix.nonzero())")
    if hasattr(source, "ndim") and hasattr(source, "tolist"):
        return [], _of_array(source)
    if hasattr(source, "keys") and hasattr(source, "items"):
        return list(source), [end for node, others in source.items() for other in others for end in (node, other)]
    return [], _of_pairs(source if isinstance(source, (list, tuple)) else list(source))


def _of_pairs(pairs):
    if not {str, bytes}.isdisjoint(map(type, pairs)):
        raise ValueError("an edge is a pair of nodes, and not a text; the path of a file is passed alone")
    try:
        if set(map(len, pairs)) <= {2}:
            return list(chain.from_iterable(pairs))
    except TypeError:
        pass
    odd = next(pair for pair in pairs if not hasattr(pair, "__len__") or len(pair) != 2)
    raise ValueError(f"an edge is a pair of nodes, and not {odd!r}")


def _of_array(array):
    if array.ndim == 2 and array.shape[1] == 2:
        return array.reshape(-1).tolist()
    if array.size == 0:
        return []
    hint = ": pass array[:, :2] for the first two columns, or numpy.argwhere(array) of a matrix" if array.ndim == 2 else ""
    raise ValueError(f"an array of edges has two columns, and not the shape {tuple(array.shape)}{hint}")


def _of_frame(frame):
    names = list(frame.columns)
    if "source" in names and "target" in names:
        columns = frame["source"], frame["target"]
    elif len(names) >= 2:
        if str(names[0]).startswith("Unnamed: "):
            # (so pandas calls a column without a name, as the row numbers that `to_csv` writes)
            raise ValueError(f"the first column is {names[0]!r}, as row numbers are: pass the two with the edges, frame[{names[1:3]}]")
        columns = frame.iloc[:, 0], frame.iloc[:, 1]
    else:
        raise ValueError("a frame of edges has two columns, or the columns `source` and `target`")
    return list(chain.from_iterable(zip(columns[0].tolist(), columns[1].tolist())))


def read_edges(path):
    """Returns the ends of the edges of a file: two words a line, and after them whatever there is.

    A word of digits is a number, and any other word a text. Empty lines, and lines that begin with # or %, are passed
    over. What gzip compressed is unpacked. Files of other formats are refused, as far as they can be told.
    """
    ends = []
    other = f"{path} looks like a file of another format: `examples/to_kcore.py` makes an input of the program of it"
    name = os.fspath(path)
    name = name[:-3] if name.endswith(".gz") else name
    if name.endswith((".graph", ".metis", ".mtx", ".csv")):
        raise ValueError(other)
    try:
        return _ends_in(path, ends, other)
    except EOFError:
        raise ValueError(f"{path}: the gzip file ends too early; copy or fetch it again") from None
    except (gzip.BadGzipFile, zlib.error) as fault:
        raise ValueError(f"{path}: the gzip file is damaged ({fault}); copy or fetch it again") from None


def _ends_in(path, ends, other):
    with open(path, "rb") as plain, (gzip.open(plain) if plain.peek(2)[:2] == b"\x1f\x8b" else plain) as file:
        for number, line in enumerate(file, 1):
            if number == 1:
                if line[:14].lower() == b"%%matrixmarket":
                    raise ValueError(other)
                # (some editors put a mark ahead of UTF-8)
                line = line[3:] if line.startswith(b"\xef\xbb\xbf") else line
            if b"\0" in line:
                raise ValueError(other)
            words = line.split(None, 2)
            if not words or words[0][:1] in b"#%":
                continue
            if b"," in words[0] and not ends:
                raise ValueError(other)
            if words[0] == b"kcore" and not ends:
                raise ValueError(f"{path} is an input of the program, and no file of edges: `kcore.command` and "
                                 "`python -m kcore` take it" + ("" if file is plain else ", once it is unpacked"))
            if words[0].startswith(b"kcore-") and not ends:
                raise ValueError(f"{path} is a text that the program printed, and no file of edges: pass the input that it was printed for")
            if len(words) == 1:
                raise ValueError(f"{path}, line {number}: one word where the two ends of an edge are wanted")
            ends += words[:2]
    names = {word: int(word) if word.isdigit() else word.decode("utf-8", "surrogateescape") for word in set(ends)}
    return list(map(names.__getitem__, ends))


def check_names(names):
    """Refuses names that aren't equal to themselves, as a missing number of a frame."""
    if any(map(operator.ne, names, names)):
        raise ValueError("a node isn't equal to itself: a missing value (NaN) is no name of a node")


def lines_of(form, width, numbers):
    """Returns the lines of items, each of which takes some numbers."""
    return (form * (len(numbers) // width)) % tuple(numbers)


def _are_small(ends):
    """Says whether all ends are numbers, from 0 to fewer than there are ends."""
    return set(map(type, ends)) == {int} and min(ends) >= 0 and max(ends) < min(len(ends), MOST_NODES)


class Numbered:
    """Is a graph whose nodes have numbers from 0, in the order in which the source names them.

    Attributes
    ----------
    names : list
        The node of each number.
    ends : list
        The two ends of each edge, one after another, if the source is no graph of networkx.
    all_named : bool
        Whether the source names every node of `names`.

    Parameters
    ----------
    source
        The graph, as in `kcore.core_number`.
    may_skip : bool
        Whether nodes that are small numbers may be taken as they are. Numbers between them then stand for nodes that
        no edge names. It saves a look-up for each end, which takes longer than all the rest where there are a million
        edges.
    """

    def __init__(self, source, may_skip=False):
        self.all_named = True
        if source is None:
            raise TypeError("a graph is wanted, and not None")
        if is_graph(source):
            check_graph(source)
            self.names = list(source.nodes)
            self._blocks = self._of_graph(source)
        else:
            nodes, self.ends = ends_of(source)
            if may_skip and not nodes and _are_small(self.ends):
                self.all_named, self.names = False, range(max(self.ends) + 1)
                self._blocks = self._of_ends(self.ends)
                return
            # Each name that isn't there yet gets the next number.
            number = defaultdict(None, zip(nodes, count()))
            number.default_factory = count(len(number)).__next__
            self._blocks = self._of_ends(list(map(number.__getitem__, self.ends)))
            self.names = list(number)
        check_names(self.names)
        if len(self.names) > MOST_NODES:
            raise ValueError(f"{len(self.names):,} nodes; the program takes at most {MOST_NODES:,}")

    def _of_graph(self, graph):
        """Yields the numbers of the ends of edges, each edge once. Loops are left out."""
        plain = self.names == list(range(len(self.names))) and set(map(type, self.names)) == {int}
        number = None if plain else dict(zip(self.names, count()))
        block = []
        for node, neighbours in graph.adjacency():
            # Of the two places of an edge only the one at the greater number is taken.
            here = node if plain else number[node]
            lesser = [there for there in (neighbours if plain else map(number.__getitem__, neighbours)) if there < here]
            block += chain.from_iterable(zip(repeat(here), lesser))
            if len(block) >= 2 * ROWS:
                yield from self._of_ends(block)
                block = []
        yield from self._of_ends(block)

    def _of_ends(self, numbers):
        return (numbers[start:start + 2 * ROWS] for start in range(0, len(numbers), 2 * ROWS))

    def input(self, profile, passed=None):
        """Yields the bytes of the input whose batches put in all edges.

        Calls `passed` with the number of edges that were passed on, after each piece.
        """
        yield b"kcore %d\nvertices %d\nbatch\n" % (profile, len(self.names))
        room, total = MOST_ITEMS, 0
        for numbers in self._blocks:
            items = len(numbers) // 2
            if items > room:
                yield b"end\nbatch\n"
                room = MOST_ITEMS
            yield lines_of(b"%d %d\n", 2, numbers)
            room -= items
            total += items
            if passed:
                passed(total)
        yield b"end\n"
