#!/usr/bin/env python3
"""What certificates cost: `kcore final 1` beside `run 1`, and `check` beside reading as many lines of edges. Runs by
hand.

    bench/certificates.py [--program PATH] [--runs N] [--edges M]

The edges of the graphs are random pairs of vertices: 1,000,000 between 100,000 vertices, and 8,000,000 (or M) between
1,048,576. They come in batches of 1,000,000. Prints seconds of processor time, each of the best of N runs (3):

- run, final      of the same batches, and the ratio of the second to the first
- read            of `run` reading and cleaning all edges once more, when all of them are there and no vertex moves:
                  the difference of two runs
- check           of the text that `final` wrote, and the ratio to `read`

Prints peak memory with each. It judges nothing: times on a shared machine are ratios at best.
"""
import argparse
import multiprocessing
import os
import random
import subprocess
import sys
import tempfile

from bench import in_batches, input_path, run_once, write_input

BATCH = 1_000_000


def edges_by_chance(n, m):
    """Distinct edges, in any order."""
    draw = random.Random(23)
    edges = {}
    while len(edges) < m:
        a, b = draw.randrange(n), draw.randrange(n)
        if a != b:
            edges[min(a, b), max(a, b)] = None
    return list(edges)


def make_inputs(folder, n, m):
    batches = in_batches(edges_by_chance(n, m), BATCH)
    write_input(folder, "once", n, batches)
    write_input(folder, "twice", n, batches * 2)


def best(program, words, path, runs):
    """The least seconds, and the most MiB."""
    results = [run_once(program, words, path) for _ in range(runs)]
    return min(seconds for seconds, _, _ in results), max(memory for _, memory, _ in results) / 1024


def certify(program, once, certificate):
    """What `final` writes of an input, which `check` has to certify."""
    with open(once, "rb") as source, open(certificate, "wb") as sink:
        subprocess.run([program, "final", "1"], stdin=source, stdout=sink, check=True)
    with open(certificate, "rb") as source:
        said = subprocess.run([program, "check"], stdin=source, capture_output=True, check=True).stdout
    if not said.startswith(b"certified "):
        sys.exit(f"{program} check says {said!r} of what final wrote")


def print_row(program, folder, n, m, runs):
    # In a process of its own: the memory of this one would count as that of the programs that it starts.
    maker = multiprocessing.Process(target=make_inputs, args=(folder, n, m))
    maker.start()
    maker.join()
    if maker.exitcode != 0:
        sys.exit("the inputs couldn't be made")
    once, twice, certificate = (input_path(folder, name) for name in ("once", "twice", "certificate"))
    certify(program, once, certificate)
    run, run_memory = best(program, ["run", "1"], once, runs)
    final, final_memory = best(program, ["final", "1"], once, runs)
    read = best(program, ["run", "1"], twice, runs)[0] - run
    check, check_memory = best(program, ["check"], certificate, runs)
    print(f"{m} edges between {n} vertices")
    print(f"  run {run:.3f} s, {run_memory:.0f} MiB; final {final:.3f} s, {final_memory:.0f} MiB: {final / run:.2f} times")
    print(f"  read {read:.3f} s; check {check:.3f} s, {check_memory:.0f} MiB: {check / read:.2f} times", flush=True)


def main():
    here = os.path.dirname(os.path.abspath(__file__))
    parser = argparse.ArgumentParser(description=__doc__, formatter_class=argparse.RawDescriptionHelpFormatter)
    parser.add_argument("--program", default=os.path.join(here, "..", "crates", "kcore", "out", "kcore"))
    parser.add_argument("--runs", type=int, default=3)
    parser.add_argument("--edges", type=int, default=8_000_000)
    options = parser.parse_args()
    with tempfile.TemporaryDirectory() as folder:
        for n, m in (100_000, min(1_000_000, options.edges)), (1 << 20, options.edges):
            print_row(os.path.abspath(options.program), folder, n, m, options.runs)


if __name__ == "__main__":
    main()
