#!/usr/bin/env python3
"""Turns a graph file into an input of `kcore`.

    to_kcore.py [options] [FILE] > graph.kc

Reads FILE, or standard input, plain or compressed by gzip, bzip2 or xz. Formats, found by the file's name and first
lines:

    edges          two ids a line, with blanks or tabs between them, as in SNAP and KONECT; # and % begin comments
    csv            the same with commas; a first line of column names is found if ids are numbers (else: --header)
    metis          the k-th line has the neighbours of vertex k (`.graph`, `.metis`, or --format metis)
    matrix-market  a square matrix in coordinates; each entry is an edge, for any value

An edge has no direction: a directed edge becomes an edge between its two ends. Self loops, repeats and edges that stand
in both directions are passed on; `kcore` takes care of them, and its batch lines count them.

Ids are numbers. They stay as they are, unless the greatest is more than twice the count of different ones. Then they
are renumbered in ascending order: the least becomes vertex 0, the next one vertex 1. --keep and --renumber decide it by
hand. With --names an id is any text, with blanks if commas or tabs part the columns. Vertices are then numbered in the
order in which the names come. --map FILE writes a line `VERTEX<tab>ID` for each vertex with an id.
`with_names.py FILE < text` puts the ids back into any text of `kcore`.

A sliding window over edges with times: --window N keeps the last N edges, --window-time T those of the last T units of
time. Edges are sorted by their time, which is in the last column or in --time-column K. Each batch takes the next
--batch edges in and those out that left the window. It has a comment with the time up to which it goes.

One line on standard error says what was done. If the file can't be used, that line says why instead, with the place and
a remedy, and nothing is written. Exit number: 0 all is written, 1 the input can't be used or a read or a write failed,
2 the words of the command line are wrong. `kcore` holds at most 16777216 edges, and refuses each batch that would go
past that.
"""
import argparse
import bz2
import contextlib
import csv
import gzip
import io
import lzma
import os
import sys
import zlib
from array import array

# What `kcore` takes.
MAX_VERTICES = 16_777_216
MAX_ITEMS = 1_048_576
MAX_BATCHES = 16_777_215
MAX_BYTES = 1_073_741_824

# The longest id that is a number, and the longest piece of a word in a message.
MAX_DIGITS = 40

NAME = "to_kcore.py"
PACKED = ((b"\x1f\x8b", "gzip", gzip.open), (b"BZh", "bzip2", bz2.open), (b"\xfd7zXZ\x00", "xz", lzma.open))
FORMATS = ("edges", "csv", "metis", "matrix-market")


class Unusable(Exception):
    """The input can't be used; the text says why, and what helps."""


def shown(word):
    """A piece of the input for a message, in ASCII and not too long."""
    return ascii(word[:MAX_DIGITS].decode("utf-8", "replace"))


class Graph:
    """The edges of a file: the ids in the order in which they first came, and the places of the ends in that order."""

    def __init__(self):
        self.places, self.ends, self.times = {}, array("I"), []
        # the vertices of a format that numbers them itself, and what was passed over
        self.vertices, self.columns, self.header, self.first_line = None, 0, False, 0

    def add(self, u, v, time=None):
        places = self.places
        self.ends.append(places.setdefault(u, len(places)))
        self.ends.append(places.setdefault(v, len(places)))
        if len(places) > MAX_VERTICES:
            raise Unusable(f"more than {MAX_VERTICES} different ids; kcore takes no more vertices")
        if time is not None:
            self.times.append(time)


def is_window(chosen):
    return chosen.window is not None or chosen.window_time is not None


def unpacked(file):
    """The file's bytes, taken out of what compressed them, and the name of that or ''."""
    head = file.peek(6)
    for magic, kind, opened in PACKED:
        if head.startswith(magic):
            return io.BufferedReader(opened(file)), kind
    if head.startswith(b"PK\x03\x04"):
        raise Unusable("a zip archive; use `unzip -p FILE | to_kcore.py`")
    return file, ""


def without_mark(text):
    """The text without the mark that some editors put ahead of UTF-8."""
    return text[3:] if text.startswith(b"\xef\xbb\xbf") else text


def lines_of(file):
    """The lines with their numbers, without the mark that some editors put first."""
    for number, line in enumerate(file, 1):
        if number == 1:
            if line[:2] in (b"\xff\xfe", b"\xfe\xff"):
                raise Unusable("line 1: the text is UTF-16; use `iconv -f UTF-16 -t UTF-8 FILE | to_kcore.py`")
            line = without_mark(line)
        if b"\0" in line:
            raise Unusable(f"line {number}: a zero byte, so this is no text")
        yield number, line


def number_from(word, what, hint=""):
    """The number that the word is."""
    if not word.isdigit() or len(word) > MAX_DIGITS:
        hint = f"; --names takes ids of any text{hint}" if what == "an id" else ""
        raise Unusable(f"{shown(word)} isn't a decimal number of at most {MAX_DIGITS} digits, as {what} is{hint}")
    return int(word)


def time_from(word, hint):
    try:
        time = float(word)
    except ValueError:
        time = float("nan")
    if time != time:
        raise Unusable(f"{shown(word)} isn't a time, which is a number; --time-column K names the column with times{hint}")
    return int(time) if time == int(time) else time


class Rows:
    """Turns the words of a line into an edge, but for a heading."""

    def __init__(self, graph, chosen, finds_heading):
        self.graph, self.names, self.ignores = graph, chosen.names, chosen.ignore_columns
        self.header, self.finds_heading = chosen.header, finds_heading and not chosen.names
        # what helps if the first line is a heading
        self.hint = "" if chosen.header else ", --header passes over a line that names the columns"
        self.has_times = is_window(chosen) and not chosen.ignore_columns
        self.column = chosen.time_column

    def take(self, number, words):
        graph, count = self.graph, len(words)
        if not graph.first_line:
            graph.first_line = number
            if self.header or self.finds_heading and not any(word.isdigit() for word in words[:2]):
                if not words[0]:
                    raise Unusable("the first column has no name, as the row numbers that pandas writes; leave it out (`index=False`,"
                                   " or `cut -d, -f2- FILE | to_kcore.py --format csv`)")
                graph.header = True
                return
        else:
            self.hint = ""
        if count < 2:
            hint = "; for semicolons between columns use `tr ';' , < FILE | to_kcore.py --format csv`" if b";" in words[0] else ""
            raise Unusable(f"one id where two are wanted{hint}")
        time = None
        if count > 2 and self.has_times:
            if self.column is not None and self.column > count:
                raise Unusable(f"{count} columns, and no column {self.column} for the time")
            time = time_from(words[self.column - 1 if self.column else count - 1], self.hint)
        elif count > 2 and not self.ignores:
            raise Unusable(f"{count} columns where two are wanted; --ignore-columns leaves out the others,"
                           " --window and --window-time take the last for a time")
        if count > 2:
            graph.columns = max(graph.columns, count)
        if self.names:
            u, v = words[0], words[1]
            if not u or not v:
                raise Unusable("an id is empty")
        else:
            u, v = number_from(words[0], "an id", self.hint), number_from(words[1], "an id", self.hint)
        if time is None and graph.times:
            raise Unusable("no time, which the lines before it have")
        if time is not None and 2 * len(graph.times) != len(graph.ends):
            raise Unusable("a time, which the lines before it don't have")
        graph.add(u, v, time)


def read_edges(lines, graph, chosen):
    rows = Rows(graph, chosen, finds_heading=False)
    for number, line in lines:
        words = line.split()
        if chosen.names and b"\t" in line and words:
            # (names may hold blanks where tabs stand between them)
            words = [word.strip() for word in line.rstrip().split(b"\t")]
        if not words or words[0][:1] in (b"#", b"%"):
            if words[:2] == [b"%", b"bip"]:
                raise Unusable(f"line {number}: a bipartite graph, whose two sides have the same ids; make them differ, as by"
                               " `awk '!/^%/ {print \"a\" $1, \"b\" $2}'`, and use --names")
            continue
        with at_line(number):
            rows.take(number, words)


def read_csv(lines, graph, chosen):
    rows = Rows(graph, chosen, finds_heading=True)
    for number, line in lines:
        with at_line(number):
            try:
                text = line.decode("utf-8")
            except UnicodeDecodeError:
                raise Unusable("the text isn't UTF-8; use `iconv -f LATIN1 -t UTF-8 FILE | to_kcore.py`") from None
            found = next(csv.reader([text], skipinitialspace=True), [])
            words = [word.strip().encode() for word in found]
            if not any(words) or words[0][:1] in (b"#", b"%"):
                continue
            rows.take(number, words)


def read_metis(lines, graph, chosen):
    head, vertex, listed = None, 0, 0
    for number, line in lines:
        if line.lstrip()[:1] == b"%" or head is None and not line.strip():
            continue
        with at_line(number):
            numbers = [number_from(word, "a vertex or a weight") for word in line.split()]
            if head is None:
                if not 2 <= len(numbers) <= 4 or not 1 <= numbers[0] <= MAX_VERTICES:
                    raise Unusable("the first line of a METIS file is `VERTICES EDGES [WEIGHTS [COUNT]]`; --format names another format")
                head = numbers
                kind = f"{head[2] if len(head) > 2 else 0:03}"
                has_sizes, has_weights, has_values = (it == "1" for it in kind[-3:])
                skipped = has_sizes + (head[3] if len(head) > 3 else 1) * has_weights
                graph.vertices = head[0]
                continue
            vertex += 1
            if vertex > head[0]:
                if numbers:
                    raise Unusable(f"neighbours of vertex {vertex}, where there are {head[0]}")
                continue
            for neighbour in numbers[skipped::2 if has_values else 1]:
                if not 1 <= neighbour <= head[0]:
                    raise Unusable(f"vertex {neighbour}, where vertices are 1 to {head[0]}")
                if neighbour == vertex:
                    raise Unusable(f"vertex {vertex} is a neighbour of its own, which METIS doesn't have")
                listed += 1
                if vertex < neighbour:
                    graph.add(vertex, neighbour)
    if head and vertex < head[0]:
        raise Unusable(f"the neighbours of {vertex} vertices, where the first line has {head[0]}")
    if head and listed != 2 * head[1]:
        raise Unusable(f"{listed} neighbours, where {head[1]} edges have {2 * head[1]}; each edge stands at both its ends")


def read_matrix(lines, graph, chosen):
    size, left = None, 0
    for number, line in lines:
        with at_line(number):
            words = line.split()
            if number == 1:
                said = [word.lower() for word in words]
                if said[:2] != [b"%%matrixmarket", b"matrix"] or len(said) < 3:
                    raise Unusable("the first line of a Matrix Market file is `%%MatrixMarket matrix coordinate ..`")
                if said[2] != b"coordinate":
                    raise Unusable("an array of all entries; write the matrix in coordinates")
                continue
            if not words or words[0][:1] == b"%":
                continue
            if size is None:
                size = [number_from(word, "a size") for word in words]
                if len(size) != 3:
                    raise Unusable("three sizes are wanted: rows, columns, entries")
                if size[0] != size[1]:
                    raise Unusable(f"{size[0]} rows and {size[1]} columns: only a square matrix is a graph")
                if not 1 <= size[0] <= MAX_VERTICES:
                    raise Unusable(f"{size[0]} rows; kcore takes 1 to {MAX_VERTICES} vertices")
                graph.vertices, left = size[0], size[2]
                continue
            if len(words) < 2:
                raise Unusable("one index where two are wanted")
            row, column = number_from(words[0], "an index"), number_from(words[1], "an index")
            if not (1 <= row <= size[0] and 1 <= column <= size[0]):
                raise Unusable(f"entry {row} {column}, where rows and columns are 1 to {size[0]}")
            graph.columns = max(graph.columns, len(words))
            graph.add(row, column)
            left -= 1
    if left:
        raise Unusable(f"{size[2] - left} entries where {size[2]} are said; the file may be cut off")


READERS = {"edges": read_edges, "csv": read_csv, "metis": read_metis, "matrix-market": read_matrix}


class at_line:
    """Puts the number of the line ahead of what is said of it."""

    def __init__(self, number):
        self.number = number

    def __enter__(self):
        return self

    def __exit__(self, kind, fault, trace):
        if kind is Unusable:
            raise Unusable(f"line {self.number}: {fault}") from None


@contextlib.contextmanager
def of_file(path, packed):
    """Says which file it is that ends too early or is damaged, where that is found as it is unpacked."""
    name = path or "standard input"
    try:
        yield
    except EOFError:
        raise Unusable(f"{name}: the {packed} file ends too early; copy or fetch it again") from None
    except (OSError, zlib.error, lzma.LZMAError) as fault:
        if not packed or isinstance(fault, OSError) and fault.errno:
            raise
        raise Unusable(f"{name}: the {packed} file is damaged ({fault}); copy or fetch it again") from None


def format_of(path, file):
    """The format, by the file's name or its first lines."""
    name = os.path.basename(path or "")
    for end in (".gz", ".bz2", ".xz"):
        name = name[:-len(end)] if name.endswith(end) else name
    head = file.peek(4096)[:4096]
    if head.lower().startswith(b"%%matrixmarket"):
        return "matrix-market"
    if name.endswith((".graph", ".metis")):
        return "metis"
    if name.endswith(".csv"):
        return "csv"
    rows = [it for it in without_mark(head).splitlines() if it.strip() and it.lstrip()[:1] not in (b"#", b"%")]
    if rows and (rows[0].split() in ([b"kcore", b"1"], [b"kcore", b"2"], [b"kserve", b"1"]) or rows[0].startswith((b"kcore-", b"kserve-"))):
        what = "an input of kcore already" if b"-" not in rows[0] else "a text that kcore printed"
        raise Unusable(f"the first line is `{rows[0].decode('utf-8', 'replace')}`, so this is {what}; --format edges takes it for edges")
    return "csv" if rows and b"," in rows[0] else "edges"


def number_vertices(graph, chosen):
    """How many vertices there are, the vertex of each place, and whether the ids were renumbered."""
    places = graph.places
    if graph.vertices is not None:
        return graph.vertices, [one - 1 for one in places], False
    if chosen.names:
        return len(places), range(len(places)), False
    greatest = max(places)
    renumbers = chosen.renumber or not chosen.keep and greatest > 2 * len(places)
    if not renumbers:
        if greatest >= MAX_VERTICES:
            raise Unusable(f"id {greatest}; kcore takes vertices up to {MAX_VERTICES - 1}: leave out --keep")
        return greatest + 1, list(places), False
    vertices = [0] * len(places)
    for vertex, one in enumerate(sorted(places)):
        vertices[places[one]] = vertex
    return len(places), vertices, True


def plain_batches(ends, vertices, items):
    """The text of the batches, batch by batch."""
    words = [str(one) for one in vertices]
    for first in range(0, len(ends), 2 * items):
        batch = ends[first:first + 2 * items]
        yield "batch\n" + "".join(f"{words[u]} {words[v]}\n" for u, v in zip(batch[::2], batch[1::2])) + "end\n"


def window_batches(graph, vertices, chosen):
    """The text of the batches of a sliding window: each edge comes in with its time and goes out when it has left the window."""
    ends, times, items = graph.ends, graph.times, chosen.batch
    count = len(ends) // 2
    order = sorted(range(count), key=times.__getitem__) if times else range(count)
    held, low = {}, 0
    for first in range(0, count, items):
        past, before = min(first + items, count), {}
        for at in order[first:past]:
            key = edge_at(ends, vertices, at)
            before.setdefault(key, held.get(key, 0))
            held[key] = held.get(key, 0) + 1
        if chosen.window is not None:
            up_to = max(low, past - chosen.window)
        else:
            up_to, oldest = low, times[order[past - 1]] - chosen.window_time
            while times[order[up_to]] <= oldest:
                up_to += 1
        for at in order[low:up_to]:
            key = edge_at(ends, vertices, at)
            before.setdefault(key, held[key])
            held[key] -= 1
        low = up_to
        changes = [f"- {u} {v}\n" for (u, v), was in before.items() if was and not held[u, v]]
        changes += [f"+ {u} {v}\n" for (u, v), was in before.items() if not was and held[u, v]]
        for key in before:
            if not held[key]:
                del held[key]
        note = f"# up to {times[order[past - 1]]}\n" if times else ""
        # (more edges may leave at once than one batch can hold)
        for at in range(0, max(len(changes), 1), MAX_ITEMS):
            yield note + "batch\n" + "".join(changes[at:at + MAX_ITEMS]) + "end\n"


def edge_at(ends, vertices, at):
    u, v = vertices[ends[2 * at]], vertices[ends[2 * at + 1]]
    return (u, v) if u <= v else (v, u)


def text_of(one):
    return one.decode("utf-8", "backslashreplace") if isinstance(one, bytes) else str(one)


def is_like_heading(graph, chosen):
    """Whether the first edge may be a heading that was taken for names: neither of its ends is a number or is in another edge."""
    ends = graph.ends
    if not chosen.names or graph.header or len(ends) < 4:
        return False
    named = zip(graph.places, range(2))
    return ends[0] != ends[1] and not any(word.isdigit() for word, _ in named) and min(ends[2:]) > 1


def holds_all(graph, chosen):
    """Whether no edge ever leaves the window."""
    if chosen.window_time is not None:
        return max(graph.times) - min(graph.times) < chosen.window_time
    return chosen.window is not None and chosen.window >= len(graph.ends) // 2


def write_map(path, graph, vertices, n):
    pairs = sorted(zip(vertices, graph.places)) if graph.vertices is None else ((vertex, vertex + 1) for vertex in range(n))
    with open(path, "w", encoding="utf-8") as file:
        file.writelines(f"{vertex}\t{text_of(one)}\n" for vertex, one in pairs)


def summary(graph, chosen, kind, packed, n, renumbered, batches):
    """What was done, in one line."""
    parts = [f"{kind}{f' ({packed})' if packed else ''}: {len(graph.ends) // 2:,} edges between {len(graph.places):,} vertices, {batches:,} "
             f"batch{'es' * (batches != 1)}"]
    if graph.vertices is not None:
        parts.append(f"vertex k of the file is vertex k - 1 of {n:,}")
    elif chosen.names:
        parts.append("names are numbered in the order in which they come")
    elif renumbered:
        parts.append(f"ids {min(graph.places)} to {max(graph.places)} renumbered in ascending order")
    else:
        parts.append(f"ids kept, so there are {n:,} vertices")
    if graph.header:
        parts.append(f"line {graph.first_line} taken for the names of columns")
    if is_like_heading(graph, chosen):
        parts.append(f"line {graph.first_line} taken for an edge (use --header if it is a heading)")
    if graph.columns > 2:
        parts.append("times in the last column" if graph.times and chosen.time_column is None else f"times in column {chosen.time_column}"
                     if graph.times else "columns after the second left out")
    if chosen.map:
        parts.append(f"ids in {chosen.map}")
    elif renumbered or chosen.names:
        parts.append("--map FILE writes down which vertex is which")
    if holds_all(graph, chosen):
        parts.append("the window doesn't move: it holds all edges of the file, so choose a smaller one")
    elif is_window(chosen) and batches == 1:
        parts.append("the window doesn't move: one batch holds all edges, so choose a smaller --batch")
    return "; ".join(parts)


def convert(chosen):
    with open(chosen.file or 0, "rb", closefd=bool(chosen.file)) as plain:
        file, packed = unpacked(plain)
        with of_file(chosen.file, packed):
            kind = chosen.format or format_of(chosen.file, file)
        if (chosen.names or chosen.header) and kind in ("metis", "matrix-market"):
            raise Unusable(f"a {kind} file has numbers alone; leave out --names and --header")
        if is_window(chosen) and kind in ("metis", "matrix-market"):
            raise Unusable(f"a {kind} file lists edges in no order of time, so no window can slide over it; leave out --window and --window-time")
        graph = Graph()
        with of_file(chosen.file, packed):
            READERS[kind](lines_of(file), graph, chosen)
    if not graph.ends:
        raise Unusable("no edge in the input, so there is nothing to convert")
    if chosen.window_time is not None and not graph.times:
        raise Unusable("--ignore-columns leaves out the times too; leave it out" if chosen.ignore_columns and graph.columns > 2 else
                       "no times in the input; --window N slides by the count of edges")
    n, vertices, renumbered = number_vertices(graph, chosen)
    head = f"kcore {chosen.profile}\nvertices {n}\n"
    made = (lambda: window_batches(graph, vertices, chosen)) if is_window(chosen) else (lambda: plain_batches(graph.ends, vertices, chosen.batch))
    batches, size = 0, len(head)
    for text in made():
        batches, size = batches + 1, size + len(text)
        if size > MAX_BYTES:
            raise Unusable(f"the output would have more than {MAX_BYTES} bytes, the most that kcore reads; --renumber makes ids shorter")
    if batches > MAX_BATCHES:
        raise Unusable(f"{batches} batches; kcore takes at most {MAX_BATCHES}: choose a greater --batch")
    if chosen.map:
        write_map(chosen.map, graph, vertices, n)
    with open(1, "wb", closefd=False) as out:
        out.write(head.encode())
        for text in made():
            out.write(text.encode())
    print(f"{NAME}: {summary(graph, chosen, kind, packed, n, renumbered, batches)}", file=sys.stderr)


def whole(least, most, what):
    """The type of an argument: a whole number within bounds."""

    def read(word):
        number = int(word) if word.isascii() and word.isdigit() and len(word) <= MAX_DIGITS else -1
        if not least <= number <= most:
            raise argparse.ArgumentTypeError(f"{word!r} isn't {what} from {least} to {most}")
        return number

    return read


def span(word):
    try:
        number = float(word)
    except ValueError:
        number = 0
    if not 0 < number < float("inf"):
        raise argparse.ArgumentTypeError(f"{word!r} isn't a span of time above 0")
    return number


def main():
    parser = argparse.ArgumentParser(usage=f"{NAME} [options] [FILE] > graph.kc", description=__doc__,
                                     formatter_class=argparse.RawDescriptionHelpFormatter, allow_abbrev=False)
    count = whole(1, MAX_ITEMS, "a whole number")
    parser.add_argument("file", metavar="FILE", nargs="?", help="the graph; standard input if not given")
    parser.add_argument("--format", choices=FORMATS, help="found by the file's name and first lines if not given")
    parser.add_argument("--header", action="store_true", help="the first line names the columns: it is passed over")
    parser.add_argument("--ignore-columns", action="store_true", help="leave out all columns after the second")
    parser.add_argument("--batch", metavar="ITEMS", type=count, default=100_000, help=f"items a batch, 1 to {MAX_ITEMS}; 100000 if not given")
    parser.add_argument("--profile", choices=("1", "2"), default="1", help="how fine the levels are; 1 if not given")
    ids = parser.add_mutually_exclusive_group()
    ids.add_argument("--keep", action="store_true", help="ids that are numbers stay as they are")
    ids.add_argument("--renumber", action="store_true", help="ids that are numbers are renumbered in ascending order")
    ids.add_argument("--names", action="store_true", help="ids are any text")
    parser.add_argument("--map", metavar="FILE", help="write a line `VERTEX<tab>ID` for each vertex with an id")
    window = parser.add_mutually_exclusive_group()
    window.add_argument("--window", metavar="N", type=whole(1, MAX_VERTICES, "a count of edges"), help="keep the last N edges")
    window.add_argument("--window-time", metavar="T", type=span, help="keep the edges of the last T units of time")
    parser.add_argument("--time-column", metavar="K", type=whole(3, 1_000, "a column"), help="the column with times; the last if not given")
    chosen = parser.parse_args()
    try:
        convert(chosen)
    except BrokenPipeError:
        # (nothing reads on, as after `| head`)
        sys.exit(1)
    except (Unusable, OSError) as fault:
        sys.exit(f"{NAME}: {fault}")


if __name__ == "__main__":
    main()
