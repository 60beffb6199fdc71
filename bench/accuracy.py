#!/usr/bin/env python3
"""How near the numbers of a vertex line are to the coreness, and how well they rank: the table of docs/GUIDE.md. Runs
by hand.

    bench/accuracy.py KCORE [NAME=EDGES ..]

Makes graphs: uniform, power law, a grid with random diagonals, and a power law under a sliding window. Takes the karate
club from `examples/`, and the dependencies of Debian's packages if `apt` has their lists. Takes each edge file of the
command line too (two numbers a line). For both profiles runs `KCORE run 4` and `KCORE exact`, and prints a line for
each graph:

- for `low`, `est` and `high` how many per cent of the vertices have the coreness itself as this number,
- for `level`, `low`, `est` and `high` the rank correlation with the coreness (Spearman's, ties at their mean), 1 for
  the same order,
- the greatest `est / coreness` and `coreness / est`.

Vertices without edges are left out. Takes some minutes and no package but Python's own.
"""
import os
import random
import re
import subprocess
import sys

from bench import grid_edges, in_batches, in_window, power_edges, uniform_edges

HERE = os.path.dirname(os.path.abspath(__file__))


def file_edges(path):
    with open(path) as file:
        rows = [line.split()[:2] for line in file if line.strip() and line[0] not in "#%"]
    return numbered((a, b) for a, b in rows)


def numbered(pairs):
    """The number of vertices, and the edges between numbers in place of names, without loops and repeats."""
    names, edges = {}, set()
    for a, b in pairs:
        u, v = names.setdefault(a, len(names)), names.setdefault(b, len(names))
        if u != v:
            edges.add((min(u, v), max(u, v)))
    return len(names), sorted(edges)


def debian_edges():
    """Which package names which in its dependencies, or None where the lists aren't there."""
    ran = subprocess.run(["apt-cache", "dumpavail"], stdout=subprocess.PIPE, stderr=subprocess.DEVNULL) if os.path.exists("/usr/bin/apt-cache") else None
    if not ran or not ran.stdout:
        return None
    pairs, package = [], ""
    for line in ran.stdout.decode(errors="replace").splitlines():
        if line.startswith("Package: "):
            package = line[9:]
        elif line.startswith(("Depends: ", "Recommends: ")):
            pairs += [(package, it) for it in re.findall(r"(?:^|[,|]) *([a-z0-9][a-z0-9.+-]+)", line.partition(": ")[2])]
    return numbered(pairs)


def graphs(given):
    """Each graph's name, number of vertices and batches."""
    yield "karate club", *one_batch(*file_edges(f"{HERE}/../examples/karate.snap"))
    debian = debian_edges()
    if debian:
        yield "Debian packages", *one_batch(*debian)
    yield "uniform", *one_batch(100_000, uniform_edges(100_000, 1_000_000, 7))
    power = power_edges(16, 1 << 20, 7)
    yield "power law", *one_batch(1 << 16, power)
    random.Random(11).shuffle(power)
    yield "power law, window", 1 << 16, list(in_window(power, 10_000, 100_000))
    draw, side = random.Random(5), 300
    grid = list(grid_edges(side)) + [(v, v + side + 1) for v in range(side * (side - 1) - 1) if v % side != side - 1 and draw.random() < 0.5]
    yield "grid, diagonals", *one_batch(side * side, grid)
    for name, path in given:
        yield name, *one_batch(*file_edges(path))


def one_batch(n, edges):
    return n, in_batches(edges, 1_000_000)


def ranks(values):
    """The rank of each value, that of equal ones the mean of theirs."""
    order, given = sorted(range(len(values)), key=values.__getitem__), [0.0] * len(values)
    first = 0
    while first < len(order):
        past = first
        while past < len(order) and values[order[past]] == values[order[first]]:
            past += 1
        for at in order[first:past]:
            given[at] = (first + past - 1) / 2
        first = past
    return given


def correlation(xs, ys):
    """Spearman's: Pearson's of the ranks, as text; none where one of the two is the same everywhere."""
    a, b = ranks(xs), ranks(ys)
    mean = (len(a) - 1) / 2
    over = sum((x - mean) * (y - mean) for x, y in zip(a, b))
    under = (sum((x - mean) ** 2 for x in a) * sum((y - mean) ** 2 for y in b)) ** 0.5
    return f"{over / under:6.2f}" if under else f"{'-':>6}"


def vertices_of(program, words, text):
    """The numbers of each vertex line, by name."""
    out = subprocess.run([program, *words], input=text, stdout=subprocess.PIPE, check=True).stdout.decode()
    rows = [line.split() for line in out.splitlines() if line.startswith("vertex ")]
    return [{key: int(value) for key, value in zip(row[::2], row[1::2])} for row in rows]


def main():
    if len(sys.argv) < 2:
        sys.exit(__doc__)
    program, given = os.path.abspath(sys.argv[1]), [word.split("=", 1) for word in sys.argv[2:]]
    print(f"{'':<20}{'vertices':>9}{'edges':>9} | {'low =':>6}{'est =':>6}{'high =':>7} | {'level':>6}{'low':>6}{'est':>6}{'high':>6} | {'est/c':>6}{'c/est':>6}")
    for name, n, batches in graphs(given):
        body = "".join(f"batch\n{lines}end\n" for lines in batches)
        for profile in 1, 2:
            text = f"kcore {profile}\nvertices {n}\n{body}".encode()
            rows = [{**a, **b} for a, b in zip(vertices_of(program, ["run", "4"], text), vertices_of(program, ["exact"], text))]
            rows = [row for row in rows if row["coreness"]]
            exact = [row["coreness"] for row in rows]
            share = [100 * sum(row[key] == row["coreness"] for row in rows) / len(rows) for key in ("low", "est", "high")]
            order = [correlation([row[key] for row in rows], exact) for key in ("level", "low", "est", "high")]
            above, below = (max(row[a] / row[b] for row in rows) for a, b in (("est", "coreness"), ("coreness", "est")))
            shown = f"{name} {profile}"
            print(f"{shown:<20}{len(rows):>9}{sum(lines.count(chr(10)) for lines in batches):>9} | {share[0]:5.0f}%{share[1]:5.0f}%{share[2]:6.0f}% |"
                  f" {''.join(order)} | {above:6.2f}{below:6.2f}", flush=True)


if __name__ == "__main__":
    main()
