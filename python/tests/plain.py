"""Plain answers to compare with, and what several tests make."""
import contextlib
import os
import random
import stat
import tempfile
import textwrap

try:
    import networkx
except ImportError:
    networkx = None

try:
    import numpy
except ImportError:
    numpy = None

try:
    import pandas
except ImportError:
    pandas = None


def neighbours_of(edges):
    """The neighbours of each node that has any."""
    neighbours = {}
    for a, b in edges:
        if a != b:
            neighbours.setdefault(a, set()).add(b)
            neighbours.setdefault(b, set()).add(a)
    return neighbours


def corenesses(edges):
    """The coreness of each node that has a neighbour, by taking away nodes with too few neighbours, k by k."""
    left, cores, k = neighbours_of(edges), {}, 0
    while left:
        few = [node for node, others in left.items() if len(others) <= k]
        if not few:
            k += 1
        for node in few:
            cores[node] = k
            for other in left.pop(node):
                if other in left:
                    left[other].discard(node)
    return cores


def random_edges(nodes, count, seed):
    """Edges between numbers, with loops and repeats, in either direction."""
    draw = random.Random(seed)
    return [(draw.randrange(nodes), draw.randrange(nodes)) for _ in range(count)]


@contextlib.contextmanager
def fake(script):
    """The path of a program that is this shell script."""
    with tempfile.TemporaryDirectory() as folder:
        path = os.path.join(folder, "fake kcore")
        with open(path, "w") as file:
            file.write("#!/bin/sh\n" + textwrap.dedent(script))
        os.chmod(path, os.stat(path).st_mode | stat.S_IXUSR)
        yield path
