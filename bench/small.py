#!/usr/bin/env python3
"""Time of a small batch in graphs of several sizes, beside another program with the same command line. Runs by hand.

    bench/small.py [--program PATH] [--other PATH] [--runs N] [--batches N] [--keep DIR]

Makes its own inputs from fixed seeds. In each a first batch puts 65,536 random edges between the first 16,384 vertices,
and then each batch has ten edges between these. So the graphs of 16,384, 131,072 and 1,048,576 vertices differ in
nothing but vertices without edges.

The time of a batch is the difference of two runs with one worker, one of which has N (2,000) batches more, by N. Of
each run the best of several counts. It judges nothing: times on a shared machine are ratios at best.

- insert      ten edges come in
- window      the ten oldest edges leave, and ten come in
"""
import argparse
import os
import random
import tempfile

from bench import input_path, run_once, signed, write_input

SIZES = (1 << 14, 1 << 17, 1 << 20)
ROWS = ("insert", "window")
AMONG, FIRST, SMALL, FEW = 1 << 14, 1 << 16, 10, 200


def distinct_edges(count):
    draw = random.Random(17)
    edges = {}
    while len(edges) < count:
        a, b = draw.randrange(AMONG), draw.randrange(AMONG)
        if a != b:
            edges[min(a, b), max(a, b)] = None
    return list(edges)


def batches_of(row, edges, count):
    yield signed(edges[:FIRST])
    for i in range(0, count * SMALL, SMALL):
        leaving = edges[i:i + SMALL] if row == "window" else []
        coming = edges[FIRST + i:FIRST + i + SMALL]
        yield "".join(f"- {a} {b}\n" for a, b in leaving) + signed(coming)


def name_of(row, n, count):
    return f"small-{row}-{n}-{count}"


def make_inputs(folder, counts):
    edges = distinct_edges(FIRST + max(counts) * SMALL)
    for row in ROWS:
        for n in SIZES:
            for count in counts:
                if not os.path.exists(input_path(folder, name_of(row, n, count))):
                    write_input(folder, name_of(row, n, count), n, list(batches_of(row, edges, count)))


def per_batch(programs, folder, row, n, counts, runs):
    """Milliseconds a batch of each program. The runs of the programs take turns."""
    best = {(program, count): float("inf") for program in programs for count in counts}
    for _ in range(runs):
        for program, count in best:
            seconds = run_once(program, ["run", "1"], input_path(folder, name_of(row, n, count)))[0]
            best[program, count] = min(best[program, count], seconds)
    few, many = counts
    return [1000 * (best[program, many] - best[program, few]) / (many - few) for program in programs]


def main():
    here = os.path.dirname(os.path.abspath(__file__))
    parser = argparse.ArgumentParser(description=__doc__, formatter_class=argparse.RawDescriptionHelpFormatter)
    parser.add_argument("--program", default=os.path.join(here, "..", "crates", "kcore", "out", "kcore"))
    parser.add_argument("--other", help="a program with the same command line to compare with")
    parser.add_argument("--runs", type=int, default=5)
    parser.add_argument("--batches", type=int, default=2_000)
    parser.add_argument("--keep", help="a folder for the inputs; those that are there are used again")
    options = parser.parse_args()
    programs = [os.path.abspath(path) for path in (options.program, options.other) if path]
    counts = FEW, FEW + options.batches
    with tempfile.TemporaryDirectory() as scratch:
        folder = options.keep or scratch
        os.makedirs(folder, exist_ok=True)
        make_inputs(folder, counts)
        print(f"{'row':<10}{'vertices':>10}{'a batch':>14}{'to least':>10}" + (f"{'other':>14}{'ratio':>8}" if options.other else ""))
        for row in ROWS:
            least = None
            for n in SIZES:
                times = per_batch(programs, folder, row, n, counts, options.runs)
                least = least or times[0]
                line = f"{row:<10}{n:>10}{times[0]:>11.4f} ms{times[0] / max(least, 1e-9):>10.2f}"
                if options.other:
                    line += f"{times[1]:>11.4f} ms{times[0] / max(times[1], 1e-9):>8.1f}"
                print(line, flush=True)


if __name__ == "__main__":
    main()
