#!/usr/bin/env python3
"""Compares the text of `kcore exact` with the coreness that a plain program finds.

    checks/programs/corenesses.py INPUT < TEXT

INPUT is what `kcore exact` read, without refused batches and without lines `x v`; TEXT is what it printed. Says at
which vertices they differ. The exit number is 1 if they do, or if a vertex has no line.
"""
import sys


def neighbours_in(path):
    """The neighbours of each vertex after the last batch."""
    with open(path, encoding="ascii") as file:
        lines = [line.split() for line in file if line.strip() and not line.startswith("#")]
    count = int(lines[1][1])
    rows = {v: set() for v in range(count)}
    for words in lines[2:]:
        if words[0] in ("batch", "end", "ask"):
            continue
        u, v = (int(word) for word in words[-2:])
        if u == v:
            continue
        change = set.discard if words[0] == "-" else set.add
        change(rows[u], v)
        change(rows[v], u)
    return rows


def corenesses(rows):
    """The coreness of each vertex: what is left where vertices with fewer than k neighbours are taken out over and over, for each k."""
    found, k = dict.fromkeys(rows, 0), 0
    while rows:
        k += 1
        while short := [v for v, row in rows.items() if len(row) < k]:
            for v in short:
                for u in rows.pop(v):
                    if u in rows:
                        rows[u].discard(v)
        for v in rows:
            found[v] = k
    return found


def main():
    if len(sys.argv) != 2:
        sys.exit(__doc__)
    wanted = corenesses(neighbours_in(sys.argv[1]))
    told = {int(words[1]): int(words[3]) for words in map(str.split, sys.stdin) if words[0] == "vertex"}
    differing = [v for v in wanted if told.get(v) != wanted[v]]
    if differing or len(told) != len(wanted):
        print(f"of {len(wanted)} vertices {len(told)} have lines, and these differ: {differing}")
        sys.exit(1)


if __name__ == "__main__":
    main()
