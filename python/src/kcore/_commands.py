"""The functions over a graph that stands still: each runs one command of the program."""
from __future__ import annotations

from typing import Any, Dict, List, NamedTuple, Optional, Set, Tuple, Union

from ._bounds import Bounds, check_profile, check_workers
from ._edges import Numbered, is_graph
from ._errors import BatchRefused, unlike
from ._program import PathLike, command, converse, find
from ._progress import Progress
from ._text import Lines, Rows

__all__ = ["core_number", "core_bounds", "k_core", "degeneracy", "orientation", "coloring", "densest", "certificate",
           "check", "Densest", "Subgraph", "Certificate", "Verdict"]


class Densest(NamedTuple):
    """Is a part of a graph that is at least half as dense as any: its nodes, and how many edges are between them."""

    nodes: Set[Any]
    edges: int

    @property
    def density(self) -> float:
        """Edges for each node."""
        return self.edges / len(self.nodes) if self.nodes else 0.0


class Subgraph(NamedTuple):
    """Is a part of a graph that was given as edges: its nodes, and the edges between them as they were given."""

    nodes: Set[Any]
    edges: List[Tuple[Any, Any]]


class Verdict(NamedTuple):
    """Is what the program says of a certificate. It is true where `certified` is.

    Attributes
    ----------
    certified : bool
        Whether the levels meet both invariants at each node, so that their bounds hold.
    line : str
        The line that the program prints.
    node : hashable or None
        The first node that breaks an invariant, if one does.
    """

    certified: bool
    line: str
    node: Any = None

    def __bool__(self) -> bool:
        return self.certified


class Certificate(NamedTuple):
    """Is a graph with a level for each node, as the program writes it down for anybody to check.

    Attributes
    ----------
    text : bytes
        The certificate (``docs/FORMATS.md``, "Certificates").
    names : list
        The node of each number in the text.
    """

    text: bytes
    names: List[Any]

    def save(self, path: PathLike) -> None:
        """Writes the text to a file."""
        with open(path, "wb") as file:
            file.write(self.text)

    def levels(self) -> Dict[Any, int]:
        """Returns the level of each node."""
        rows = [line.split() for line in self.text.splitlines() if line.startswith(b"level ")]
        return {self.names[int(node)]: int(level) for _, node, level in rows}

    def edges(self) -> List[Tuple[Any, Any]]:
        """Returns the edges, as pairs of nodes."""
        rows = [line.split() for line in self.text.splitlines() if line.startswith(b"edge ")]
        return [(self.names[int(a)], self.names[int(b)]) for _, a, b in rows]


class _Text:
    """Reads the text of a command as it comes: notes, a head, rows, and `end`. Rows are passed on, many at a time."""

    def __init__(self, head, heads, rows):
        self.head, self.left, self.rows = head, heads, rows
        self.kept, self.refusal, self.ended = [], None, False

    def __call__(self, lines):
        while self.left and lines:
            line, _, lines = lines.partition(b"\n")
            self._head(line.split())
        if self.ended and lines:
            raise unlike(f"{lines[:60]!r} after the line `end`")
        if lines == b"end\n" or lines.endswith(b"\nend\n"):
            self.ended, lines = True, lines[:-4]
        if lines:
            self.rows(lines)

    def _head(self, words):
        if words[:1] == [b"#"]:
            self.refusal = self.refusal or words[1:]
        elif not self.kept and words != [self.head, b"1"]:
            said = b" ".join(words)
            raise unlike(f"the first line {said!r}, and not `{self.head.decode()} 1`")
        else:
            self.kept.append(words)
            self.left -= 1

    def check(self, rest):
        """Refuses a text that isn't whole, or that says that a batch was refused."""
        if rest or not self.ended:
            raise unlike("a text that breaks off before its line `end`")
        if self.refusal:
            _, number, _, _, _, reason = self.refusal
            raise BatchRefused(reason.decode(), int(number))


def _run(graph, words, head, heads, rows, profile, progress, program):
    """Runs a command on the graph, and passes the rows of its text on. Returns the lines of the head, as words."""
    text = _Text(head, heads, rows)
    lines, shown = Lines(text), Progress(progress)
    name = "kcore " + " ".join(map(str, words))

    def take(block):
        shown.say(name, "the answer comes")
        lines(block)

    try:
        pieces = graph.input(profile, lambda edges: shown.say(name, f"{edges:,} edges passed on"))
        converse(find(program), words, pieces, take, right=(0, 1))
    finally:
        shown.end()
    text.check(lines.rest)
    return text.kept


def core_number(G: Any, *, program: Optional[PathLike] = None, progress: Optional[bool] = None) -> Dict[Any, int]:
    """Returns the coreness of each node, as `networkx.core_number` does.

    Parameters
    ----------
    G : graph, array, frame, mapping, path or iterable
        A graph of networkx; or edges, as pairs of nodes in a list or any iterable, an array of numpy with two
        columns, a frame of pandas (its columns `source` and `target`, or else its first two), a mapping from each
        node to its neighbours, or the path of a file with two names a line (words of digits are numbers, others are
        texts).

        Nodes are anything hashable. Loops are passed over, where networkx raises. Parallel edges count once, also
        those of a multigraph, which networkx refuses. A directed graph of networkx is refused: networkx counts an
        edge there and one back as two, and here edges have no direction.
    program : path, optional
        The program; see `kcore.program`.
    progress : bool, optional
        Whether to show how far it is. If not given: on a terminal, once it takes longer than a second.

    Returns
    -------
    dict
        Node to coreness: the greatest k for which some set of nodes holds it and gives each member at least k
        neighbours in the set. The nodes are in the order of the graph. Of edges they are in no order that is
        promised.

    Raises
    ------
    BatchRefused
        If there are more than 16,777,216 edges.
    ProgramEnded
        If the program ended before it was done.

    Examples
    --------
    >>> kcore.core_number([("a", "b"), ("b", "c"), ("c", "a"), ("c", "d")])
    {'a': 2, 'b': 2, 'c': 2, 'd': 1}
    """
    return _core_number(Numbered(G, may_skip=True), program, progress)


def _core_number(graph, program, progress):
    if not graph.names:
        return {}
    rows = Rows(b"vertex", 10, 3)
    _run(graph, ["exact"], b"kcore-exact", 2, rows, 2, progress, program)
    cores = _by_node(graph.names, rows.columns[0])
    if not graph.all_named:
        # A node that edges name and whose coreness is 0 has loops alone.
        loops = {a for a, b in zip(graph.ends[::2], graph.ends[1::2]) if a == b}
        cores = {node: core for node, core in cores.items() if core or node in loops}
    return cores


def _by_node(names, values):
    if len(names) != len(values):
        raise unlike(f"lines of {len(values)} vertices, and not of {len(names)}")
    return dict(zip(names, values))


def degeneracy(G: Any, *, program: Optional[PathLike] = None, progress: Optional[bool] = None) -> int:
    """Returns the greatest coreness of a node, 0 for a graph without edges.

    Parameters are those of `core_number`.

    Examples
    --------
    >>> kcore.degeneracy([(0, 1), (1, 2), (2, 0), (2, 3)])
    2
    """
    return max(core_number(G, program=program, progress=progress).values(), default=0)


def k_core(G: Any, k: Optional[int] = None, *, program: Optional[PathLike] = None,
           progress: Optional[bool] = None) -> Any:
    """Returns the subgraph of the nodes whose coreness is at least k, as `networkx.k_core` does.

    Parameters
    ----------
    G
        The graph, as in `core_number`.
    k : int, optional
        If not given, the greatest coreness of a node.
    program, progress
        As in `core_number`.

    Returns
    -------
    graph or Subgraph
        Of a graph of networkx the subgraph, copied with all attributes. Of edges in another form a `Subgraph`: the
        nodes, and the edges between them in the order in which they were given, but for loops.

    Examples
    --------
    >>> kcore.k_core([(0, 1), (1, 2), (2, 0), (2, 3)], 2)
    Subgraph(nodes={0, 1, 2}, edges=[(0, 1), (1, 2), (2, 0)])
    """
    graph = Numbered(G, may_skip=True)
    cores = _core_number(graph, program, progress)
    least = max(cores.values(), default=0) if k is None else k
    nodes = {node for node, core in cores.items() if core >= least}
    if is_graph(G):
        return G.subgraph(nodes).copy()
    pairs = zip(graph.ends[::2], graph.ends[1::2])
    return Subgraph(nodes, [(a, b) for a, b in pairs if a != b and a in nodes and b in nodes])


def core_bounds(G: Any, *, profile: int = 2, workers: int = 1, program: Optional[PathLike] = None,
                progress: Optional[bool] = None) -> Dict[Any, Bounds]:
    """Returns bounds of the coreness of each node.

    Parameters
    ----------
    G
        The graph, as in `core_number`.
    profile : int, optional
        2: the coreness is at most twice the estimate. 1: at most three times, and there are fewer levels.
    workers : int, optional
        The number of workers, 1 to 64. The answer is the same for any.
    program, progress
        As in `core_number`.

    Returns
    -------
    dict
        Node to `Bounds`: low, est, high and level, as the program prints them.

    Examples
    --------
    >>> kcore.core_bounds([(0, 1), (1, 2), (2, 0), (2, 3)])[0]
    Bounds(low=1, est=2, high=3, level=5)
    """
    check_profile(profile)
    check_workers(workers)
    graph = Numbered(G)
    if not graph.names:
        return {}
    rows = Rows(b"vertex", 14, 7, 5, 9, 3)
    _run(graph, ["run", workers], b"kcore-run", 2, _AfterBatches(rows), profile, progress, program)
    return _by_node(graph.names, list(map(Bounds, *rows.columns)))


class _AfterBatches:
    """Passes over the lines of batches, phases and groups, and passes the lines of the vertices on."""

    def __init__(self, rows):
        self.rows, self.began = rows, False

    def __call__(self, lines):
        if not self.began:
            begin = 0 if lines.startswith(b"vertex ") else lines.find(b"\nvertex ") + 1 or len(lines)
            for line in lines[:begin].splitlines():
                words = line[:80].split()
                if words[0] == b"batch" and words[2] == b"refused":
                    raise BatchRefused(words[5].decode(), int(words[1]))
            self.began, lines = begin < len(lines), lines[begin:]
        if lines:
            self.rows(lines)


def orientation(G: Any, *, profile: int = 2, workers: int = 1, program: Optional[PathLike] = None,
                progress: Optional[bool] = None) -> Dict[Any, List[Any]]:
    """Directs each edge so that no node has more out-neighbours than four times its coreness.

    Parameters
    ----------
    G
        The graph, as in `core_number`.
    profile : int, optional
        1: six times in place of four.
    workers, program, progress
        As in `core_bounds`.

    Returns
    -------
    dict
        Node to the list of its out-neighbours. Each edge is in one of the lists of its ends, and no walk along the
        edges comes back to where it began.

    Examples
    --------
    >>> kcore.orientation([(0, 1), (1, 2), (2, 0), (2, 3)])
    {0: [1, 2], 1: [2], 2: [], 3: [2]}
    """
    return _orient(G, profile, workers, program, progress)[0]


def coloring(G: Any, *, profile: int = 2, workers: int = 1, program: Optional[PathLike] = None,
             progress: Optional[bool] = None) -> Dict[Any, int]:
    """Gives each node a colour that none of its neighbours has.

    Parameters
    ----------
    G, profile, workers, program, progress
        As in `orientation`.

    Returns
    -------
    dict
        Node to colour, a number from 0. There are at most four times the degeneracy and one of them, in profile 1 six
        times.

    Examples
    --------
    >>> kcore.coloring([(0, 1), (1, 2), (2, 0), (2, 3)])
    {0: 2, 1: 1, 2: 0, 3: 1}
    """
    return _orient(G, profile, workers, program, progress)[1]


def _orient(G, profile, workers, program, progress):
    check_profile(profile)
    check_workers(workers)
    graph = Numbered(G)
    if not graph.names:
        return {}, {}
    out, colours, name = [], [], graph.names.__getitem__

    def rows(lines):
        for line in lines.splitlines():
            words = line.split()
            if words[0] != b"vertex" or int(words[1]) != len(out):
                raise unlike(f"the line {line[:100]!r}, where that of vertex {len(out)} is due")
            colours.append(int(words[3]))
            out.append(list(map(name, map(int, words[5:]))))

    _run(graph, ["orient", workers], b"kcore-orient", 2, rows, profile, progress, program)
    return _by_node(graph.names, out), _by_node(graph.names, colours)


def densest(G: Any, *, program: Optional[PathLike] = None, progress: Optional[bool] = None) -> Densest:
    """Returns a part of the graph that is at least half as dense as any other.

    Parameters
    ----------
    G, program, progress
        As in `core_number`.

    Returns
    -------
    Densest
        The nodes, and the number of edges between them. No set of nodes has more than twice as many edges for each
        node.

    Examples
    --------
    >>> part = kcore.densest([(0, 1), (1, 2), (2, 0), (2, 3), (4, 5)])
    >>> part
    Densest(nodes={0, 1, 2}, edges=3)
    >>> part.density
    1.0
    """
    graph = Numbered(G)
    if not graph.names:
        return Densest(set(), 0)
    members = []

    def rows(lines):
        members.extend(map(int, lines.split()[1::2]))

    head = _run(graph, ["dense"], b"kcore-dense", 3, rows, 2, progress, program)
    _, size, _, edges = head[2]
    if int(size) != len(members):
        raise unlike(f"{len(members)} members of a part of {int(size)}")
    return Densest(set(map(graph.names.__getitem__, members)), int(edges))


def certificate(G: Any, *, profile: int = 2, workers: int = 1, program: Optional[PathLike] = None,
                progress: Optional[bool] = None) -> Certificate:
    """Returns the graph with a level for each node, as a text from which anybody can check the bounds.

    Parameters
    ----------
    G, profile, workers, program, progress
        As in `core_bounds`.

    Returns
    -------
    Certificate
        Its text, and the node of each number in it.

    Examples
    --------
    >>> c = kcore.certificate([("a", "b")])
    >>> c.levels()
    {'a': 1, 'b': 1}
    >>> c.text.splitlines()[:3]
    [b'kcore-cert 1', b'profile 2', b'vertices 2']
    """
    check_profile(profile)
    check_workers(workers)
    graph = Numbered(G)
    if not graph.names:
        raise ValueError("a certificate needs a graph with a node")
    kept: List[bytes] = []
    head = _run(graph, ["final", workers], b"kcore-cert", 4, kept.append, profile, progress, program)
    lines = b"".join(b" ".join(words) + b"\n" for words in head)
    return Certificate(lines + b"".join(kept) + b"end\n", graph.names)


def check(c: Union[Certificate, bytes, PathLike], *, program: Optional[PathLike] = None) -> Verdict:
    """Has the program check a certificate, whatever wrote it.

    Parameters
    ----------
    c : Certificate, bytes or path
        The certificate, its text, or the file that has it.
    program : path, optional
        As in `core_number`.

    Returns
    -------
    Verdict
        True if the levels meet both invariants at each node, so that they bound the coreness. Its `line` says what is
        wrong if not.

    Examples
    --------
    >>> c = kcore.certificate([("a", "b"), ("b", "c")])
    >>> kcore.check(c)
    Verdict(certified=True, line='certified vertices 3 edges 2', node=None)
    >>> kcore.check(c.text.replace(b"level 0 1", b"level 0 0")).line
    'upper 0'
    """
    text, names = (c.text, c.names) if isinstance(c, Certificate) else (c, None)
    line = command("check", input=text, program=program).decode("ascii").rstrip("\n")
    words = line.split()
    if words[0] not in ("certified", "upper", "lower", "refused"):
        raise unlike(f"the line {line[:100]!r} of a certificate")
    node = int(words[1]) if words[0] in ("upper", "lower") else None
    return Verdict(words[0] == "certified", line, node if names is None or node is None else names[node])
