#!/usr/bin/env python3
"""Puts the ids of a graph back into a text that `kcore` or `kserve` printed.

    with_names.py MAP < text > text

MAP is the file that `to_kcore.py --map MAP` wrote: a line `VERTEX<tab>ID` for each vertex. Each number of a vertex in
the text becomes its id: in lines `vertex`, `group`, `reader`, `member`, `edge`, `level`, `take`, `upper` and `lower`. A
vertex without an id keeps its number. All other lines stay as they are.

An id with white space, a colon, an equals sign or quotes is written as a JSON string. In the string these stand as
`\\u0020` and the like, so that lines can still be cut at blanks. A line on standard error says so if the map is of
another graph than the text. Put names in last: a text with names is for people, and `kcore check` and `kcore audit`
don't read it.

Exit number: 0 all is written, 1 the map can't be used or a read or a write failed, 2 the command line is wrong.
"""
import json
import re
import sys

# What makes an id ambiguous in a line.
ODD = re.compile(r"[\s:=\"]")


def quoted(one):
    """The id as a JSON string without white space, colons and equals signs."""
    text = json.dumps(one, ensure_ascii=False)[1:-1]
    return '"' + re.sub(r"[\s:=]", lambda it: f"\\u{ord(it[0]):04x}", text) + '"'


class Ids(dict):
    """The id of each vertex, as it is written. A vertex without one keeps its number, and the greatest of these is noted."""

    def __init__(self):
        self.count, self.greatest = 0, -1

    def __missing__(self, vertex):
        if vertex.isdigit():
            self.greatest = max(self.greatest, int(vertex))
        return vertex


def read_map(path):
    ids = Ids()
    with open(path, encoding="utf-8") as file:
        for number, line in enumerate(file, 1):
            vertex, tab, one = line.rstrip("\n").partition("\t")
            if not tab or not vertex.isascii() or not vertex.isdigit():
                raise ValueError(f"{path}: line {number} isn't `VERTEX<tab>ID`")
            ids[vertex] = quoted(one) if not one or ODD.search(one) else one
            ids.count = max(ids.count, int(vertex) + 1)
    return ids


def pairs(words, mark, ids):
    """Words `V:L` or `V=L` with the ids of their vertices."""
    for word in words:
        vertex, at, level = word.partition(mark)
        yield ids[vertex] + at + level


def renamed(words, ids):
    """The words of a line with the ids of its vertices."""
    kind, count = words[0], len(words)
    if kind == "vertex":
        # (after `out` come the out-neighbours; all other numbers are none of vertices)
        past = words.index("out") + 1 if "out" in words else count
        return [kind, ids[words[1]], *words[2:past], *map(ids.__getitem__, words[past:])]
    if kind in ("member", "upper", "lower") and count == 2 or kind == "edge" and count == 3:
        return [kind, *map(ids.__getitem__, words[1:])]
    if kind == "level" and count == 3:
        return [kind, ids[words[1]], words[2]]
    if kind == "group" and count > 3:
        return [kind, words[1], ids[words[2]], *pairs(words[3:], ":", ids)]
    if kind == "reader" and count > 2:
        return [kind, words[1], *pairs(words[2:], "=", ids)]
    if kind == "take" and count == 5:
        return [*words[:3], *map(ids.__getitem__, words[3:])]
    return words


def other_graph(path, ids, vertices):
    """What shows that the map is of another graph than the text, or None. The text says how many vertices there are, or not (None)."""
    if vertices is not None and vertices != ids.count:
        return f"{path} is the map of a graph with {ids.count:,} vertices, and the text has {vertices:,}: is it of another graph?"
    if ids.greatest >= ids.count:
        return f"{path} is the map of a graph with {ids.count:,} vertices, and the text names vertex {ids.greatest}: is it of another graph?"
    return None


def main():
    if len(sys.argv) != 2 or sys.argv[1].startswith("-"):
        print(__doc__, file=sys.stdout if sys.argv[1:] in (["-h"], ["--help"]) else sys.stderr)
        sys.exit(0 if sys.argv[1:] in (["-h"], ["--help"]) else 2)
    try:
        ids, vertices = read_map(sys.argv[1]), None
        with open(0, encoding="utf-8", errors="surrogateescape", newline="\n", closefd=False) as text, \
                open(1, "w", encoding="utf-8", errors="surrogateescape", newline="\n", closefd=False) as out:
            for line in text:
                words = line.rstrip("\n").split(" ")
                if words[0] == "vertices" and len(words) == 2 and words[1].isdigit():
                    vertices = int(words[1])
                out.write(line if words[0] == "#" or len(words) < 2 else " ".join(renamed(words, ids)) + "\n")
        doubt = other_graph(sys.argv[1], ids, vertices)
        if doubt:
            print(f"with_names.py: {doubt}", file=sys.stderr)
    except BrokenPipeError:
        # (nothing reads on, as after `| head`)
        sys.exit(1)
    except (OSError, ValueError) as fault:
        sys.exit(f"with_names.py: {fault}")


if __name__ == "__main__":
    main()
