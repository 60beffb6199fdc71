#!/usr/bin/env python3
"""Times of reads of a store beside plain loads from memory, of a writer's moves, and of opening a store. Runs by hand.

    bench/reads.py [--program PATH] [--runs N]

Runs `store_bench` N times (5), and takes the best run of each measurement; its root file says what it measures. Prints
the number of processors, and for each number of vertices:

- the nanoseconds of a plain load, of a read of one load (nothing is marked), and of a read of three (all is marked,
  nothing is published), with one reader;
- the same of a read beside a writer that shows one plan after another. Before each plan the writer reads the levels of
  the vertices that it moves by passes of its own;
- the ratios of these to a plain load;
- how many times one reader's rate eight readers have together, and so of eight threads that load from one array;
- the nanoseconds of a mark, a publication and a clearing of one move.

For the largest store it also prints how long it takes to open, beside zeroing as much memory.

It judges nothing: times on a shared machine are ratios at best. Readers and writer take turns if there are fewer
processors. A writer may have ended before the readers beside it in the run whose times are printed. Then their rate is
partly that of a store at rest, and a line says so.
"""
import argparse
import os
import subprocess

PROGRAM = os.path.join(os.path.dirname(__file__), "..", "crates", "store_bench", "out", "store_bench")
READS = (("one load", "rest"), ("three loads", "marked"), ("beside a writer", "beside"))


def measurements(program):
    """(what, how many at once, vertices) to (count, nanoseconds), of one run."""
    out = subprocess.run([program, "timed"], check=True, capture_output=True, text=True).stdout
    found = {}
    for line in out.splitlines():
        what, together, vertices, count, time = line.split()
        found[what, int(together), int(vertices)] = int(count), int(time)
    return found


def best_of(program, runs):
    """The least time of each measurement; that of a writer is of the run that has the least time of the readers beside it."""
    best = {}
    for _ in range(runs):
        found = measurements(program)
        for key, (count, time) in found.items():
            what, together, n = key
            if what == "writer" or (key in best and best[key][1] <= time):
                continue
            best[key] = count, time
            if what == "beside":
                best["writer", together, n] = found["writer", together, n]
    return best


def print_reads(best, n):
    def each(what, together=1):
        count, time = best[what, together, n]
        return time / count

    plain = each("plain")
    print(f"{n} vertices")
    print(f"  {'plain load':16} {plain:8.2f} ns   {1:6.2f} plain loads   eight threads together {plain / each('plain', 8):5.2f} times one")
    for name, what in READS:
        one, eight = each(what), each(what, 8)
        print(f"  {name:16} {one:8.2f} ns   {one / plain:6.2f} plain loads   eight readers together {one / eight:5.2f} times one")
    for together in 1, 8:
        reading, writing = best["beside", together, n][1], best["writer", together, n][1]
        if writing < reading:
            print(f"  the writer had ended before its {together} readers: {writing / reading:.2f} of their time")
    print(f"  {'move':16} {each('moves'):8.2f} ns")


def main():
    parser = argparse.ArgumentParser(description="Times of reads of a store.")
    parser.add_argument("--program", default=PROGRAM)
    parser.add_argument("--runs", type=int, default=5)
    words = parser.parse_args()
    best = best_of(words.program, words.runs)
    print(f"{os.cpu_count()} processors, the best of {words.runs} runs")
    for n in sorted({n for what, _, n in best if what == "plain"}):
        print_reads(best, n)
    for n in sorted({n for what, _, n in best if what == "opened"}):
        opened, zeroed = best["opened", 1, n][1], best["zeroed", 1, n][1]
        print(f"{n} vertices")
        print(f"  open {opened / 1e6:.1f} ms, zeroing its memory {zeroed / 1e6:.1f} ms: {opened / zeroed:.2f} times")


if __name__ == "__main__":
    main()
