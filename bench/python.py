#!/usr/bin/env python3
"""Time of the Python package beside that of the program alone. Runs by hand.

    bench/python.py [--program PATH] [--runs N] [--edges M] [--batches N] [--only core_number|apply]

It makes its own graphs from fixed seeds, and prints the best of several runs (5), by turns. It judges nothing: times
on a shared machine are ratios at best.

- core_number   M (1,000,000) edges between M / 10 nodes: `kcore.core_number` of pairs in a list, and of a graph of networkx
                where there is one; beside plain code that writes the edges into a file, runs `kcore exact` on it, and
                reads its text into a dict. Seconds of processor time, of Python and the program together, and that
                pass; and the ratios of the two.
- apply         batches of ten edges, among 16,384 nodes with 65,536 edges: `Stream.apply` beside the same bytes by plain
                writes and reads of the pipes, and those beside the same bytes in a file. Milliseconds a batch, of N (2,000), and the
                differences: what the package takes beyond the pipes, and what taking turns over them takes beyond the batch itself.
                Insertions alone, and a window: ten edges leave and ten come in.
"""
import argparse
import os
import random
import resource
import subprocess
import sys
import tempfile
import time

HERE = os.path.dirname(os.path.abspath(__file__))
sys.path.insert(0, os.path.join(HERE, "..", "python", "src"))
import kcore  # noqa: E402

try:
    import networkx
except ImportError:
    networkx = None

AMONG, FIRST, SMALL = 1 << 14, 1 << 16, 10


def distinct_edges(nodes, count, seed):
    draw, edges = random.Random(seed), {}
    while len(edges) < count:
        a, b = draw.randrange(nodes), draw.randrange(nodes)
        if a != b:
            edges[min(a, b), max(a, b)] = None
    return list(edges)


def timed(call):
    began = time.perf_counter()
    result = call()
    return time.perf_counter() - began, result


def processor_time():
    """Seconds of this process and of those that it waited for."""
    uses = resource.getrusage(resource.RUSAGE_SELF), resource.getrusage(resource.RUSAGE_CHILDREN)
    return sum(use.ru_utime + use.ru_stime for use in uses)


def both_times(call):
    """Seconds of processor time, and that pass, and the result."""
    used = processor_time()
    seconds, result = timed(call)
    return (processor_time() - used, seconds), result


def plain_cores(program, edges, nodes, folder):
    """Writes the edges, runs `kcore exact`, and reads its text, as one would by hand."""
    source, sink = os.path.join(folder, "edges.kc"), os.path.join(folder, "cores.txt")
    with open(source, "w") as file:
        file.write(f"kcore 2\nvertices {nodes}\nbatch\n")
        for a, b in edges:
            file.write(f"{a} {b}\n")
        file.write("end\n")
    with open(source, "rb") as given, open(sink, "wb") as taken:
        subprocess.run([program, "exact"], stdin=given, stdout=taken, check=True)
    cores = {}
    with open(sink) as file:
        for line in file:
            if line.startswith("vertex "):
                words = line.split()
                cores[int(words[1])] = int(words[3])
    return cores


def core_number(program, count, runs):
    nodes = max(2, count // 10)
    edges = distinct_edges(nodes, count, 1)
    forms = {"pairs": edges}
    if networkx:
        forms["networkx"] = networkx.Graph()
        forms["networkx"].add_nodes_from(range(nodes))
        forms["networkx"].add_edges_from(edges)
    best = dict.fromkeys(["plain", *forms], (float("inf"),) * 2)

    def note(form, times):
        best[form] = tuple(map(min, best[form], times))

    with tempfile.TemporaryDirectory() as folder:
        for _ in range(runs):
            times, cores = both_times(lambda: plain_cores(program, edges, nodes, folder))
            note("plain", times)
            for form, graph in forms.items():
                times, mine = both_times(lambda: kcore.core_number(graph, program=program))
                note(form, times)
                if any(cores[node] != core for node, core in mine.items()):
                    sys.exit(f"core_number of {form} differs from the program's text")
    print(f"{'':<28}{'edges':>10}{'processor':>12}{'by hand':>10}{'times':>7}{'passing':>10}{'by hand':>10}{'times':>7}")
    for form in forms:
        row = f"core_number of {form:<13}{count:>10,}"
        for (mine, plain), width in zip(zip(best[form], best["plain"]), (12, 10)):
            row += f"{mine:>{width - 2}.2f} s{plain:>8.2f} s{mine / plain:>7.2f}"
        print(row, flush=True)


def batches_of(row, edges, count):
    """What leaves and what comes in in each batch."""
    for i in range(0, count * SMALL, SMALL):
        yield (edges[i:i + SMALL] if row == "window" else [], edges[FIRST + i:FIRST + i + SMALL])


def by_stream(program, first, batches):
    with kcore.Stream(nodes=range(AMONG), program=program) as stream:
        stream.apply(add=first)
        return timed(lambda: [stream.apply(add=coming, remove=leaving) for leaving, coming in batches])[0]


def pieces_of(first, batches):
    """The bytes of each batch and of the empty one after it."""
    texts = ["".join(f"- {a} {b}\n" for a, b in leaving) + "".join(f"{a} {b}\n" for a, b in coming) for leaving, coming in batches]
    texts.insert(0, "".join(f"{a} {b}\n" for a, b in first))
    return [f"batch\n{text}end\nbatch\nend\n".encode() for text in texts]


def from_file(program, first, batches):
    """The same bytes in a file: the time of the batches is that of the whole run less that of one with the first batch alone."""
    pieces, seconds = pieces_of(first, batches), []
    with tempfile.TemporaryFile() as given, tempfile.TemporaryFile() as taken:
        given.write(f"kcore 2\nvertices {AMONG}\n".encode() + pieces[0])
        for rest in b"", b"".join(pieces[1:]):
            given.write(rest)
            given.flush()
            given.seek(0)
            seconds.append(timed(lambda: subprocess.run([program, "run", "1"], stdin=given, stdout=taken, check=True))[0])
            given.seek(0, os.SEEK_END)
    return seconds[1] - seconds[0]


def by_pipes(program, first, batches):
    """The same bytes, ready beforehand: each batch is written, and read up to the line of its marker."""
    pieces = pieces_of(first, batches)
    marks = [b"\nbatch %d loops 0 repeats 0 idle 0 removed 0 added 0\n" % (2 * i) for i in range(1, len(pieces) + 1)]
    process = subprocess.Popen([program, "run", "1"], stdin=subprocess.PIPE, stdout=subprocess.PIPE, bufsize=0)
    source, sink = process.stdin.fileno(), process.stdout.fileno()

    def send(piece, mark):
        os.write(source, piece)
        text = b""
        while not text.endswith(mark):
            text += os.read(sink, 1 << 20)

    process.stdin.write(f"kcore 2\nvertices {AMONG}\n".encode())
    rest = memoryview(pieces[0])
    while rest:
        rest = rest[process.stdin.write(rest):]
    text = b""
    while not text.endswith(marks[0]):
        text += os.read(sink, 1 << 20)
    began = time.perf_counter()
    for piece, mark in zip(pieces[1:], marks[1:]):
        send(piece, mark)
    seconds = time.perf_counter() - began
    process.stdin.close()
    process.stdout.read()
    process.wait()
    return seconds


def apply(program, count, runs):
    edges = distinct_edges(AMONG, FIRST + count * SMALL, 17)
    for row in "insert", "window":
        batches = list(batches_of(row, edges, count))
        mine = theirs = alone = float("inf")
        for _ in range(runs):
            alone = min(alone, from_file(program, edges[:FIRST], batches))
            theirs = min(theirs, by_pipes(program, edges[:FIRST], batches))
            mine = min(mine, by_stream(program, edges[:FIRST], batches))
        mine, theirs, alone = (1000 * seconds / count for seconds in (mine, theirs, alone))
        print(f"apply, {row:<8}{count:>8,} batches{mine:>8.3f} ms, {theirs:.3f} ms by pipes, {alone:.3f} ms from a file: {mine - theirs:.3f} ms beyond the "
              f"pipes, which take {theirs - alone:.3f} ms beyond the file", flush=True)


def main():
    parser = argparse.ArgumentParser(description=__doc__, formatter_class=argparse.RawDescriptionHelpFormatter)
    parser.add_argument("--program", help="the program; else as kcore.program() finds it")
    parser.add_argument("--runs", type=int, default=5)
    parser.add_argument("--edges", type=int, default=1_000_000)
    parser.add_argument("--batches", type=int, default=2_000)
    parser.add_argument("--only", choices=("core_number", "apply"))
    options = parser.parse_args()
    program = kcore.program(options.program).path
    if options.only != "apply":
        core_number(program, options.edges, options.runs)
    if options.only != "core_number":
        apply(program, options.batches, options.runs)


if __name__ == "__main__":
    main()
