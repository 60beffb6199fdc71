#!/usr/bin/env python3
"""What readers cost beside batches, and how much they see: `kcore run` on one graph without readers, and with eight.
Runs by hand.

    bench/readers.py [--program PATH] [--other PATH] [--runs N] [--workers W] [--edges M]

The graph has 1,000,000 edges (or M) between 100,000 vertices, each pair as likely as another, in batches of 1,000
items. Eight readers have 65,536 questions each, the most that there may be: 256 vertices 256 times, or 65 vertices
1,000 times. The program runs on all inputs by turns, N times (3), and so does another one, if there is one. Prints the
seconds that pass in the best run of each, and the ratios.

Then the graph has degrees by a power law (R-MAT): half as many edges between 65,536 vertices, in batches of 1,000. One
reader asks 1,000 times for the 65 vertices that have most neighbours at the end. Prints two numbers of N runs of each
program. The first is how many different points of the history its replies meet at least
(checks/programs/explained.py). The second is how many of the last 65 replies are the levels at the end.

It judges nothing: times on a shared machine are ratios at best, and readers run in threads of their own.
"""
import argparse
import os
import random
import subprocess
import sys
import tempfile
import time

from bench import power_edges

sys.path.append(os.path.join(os.path.dirname(os.path.abspath(__file__)), "../checks/programs"))
from explained import points_met, replies_of  # noqa: E402

VERTICES = 100_000
BATCH = 1_000
READERS = 8
# How many vertices a reader asks for: fewer of them more often.
SHORT, LONG = 256, 65
SCALE = 16


def write_input(path, vertices, edges, asks):
    with open(path, "w") as out:
        out.write(f"kcore 1\nvertices {vertices}\n")
        for ask in asks:
            out.write(f"ask {65_536 // len(ask) if len(ask) == SHORT else 1_000} {' '.join(map(str, ask))}\n")
        for start in range(0, len(edges), BATCH):
            out.write("batch\n")
            out.writelines(f"{a} {b}\n" for a, b in edges[start : start + BATCH])
            out.write("end\n")


def seconds(program, workers, path):
    begin = time.perf_counter()
    with open(path, "rb") as source:
        subprocess.run([program, "run", str(workers)], stdin=source, stdout=subprocess.DEVNULL, check=True)
    return time.perf_counter() - begin


def busiest(edges):
    """The vertices that have most neighbours."""
    degrees = [0] * (1 << SCALE)
    for ends in edges:
        for end in ends:
            degrees[end] += 1
    return sorted(range(1 << SCALE), key=lambda v: -degrees[v])[:LONG]


def seen(program, workers, path):
    """How many points a reader meets and how many there are, and how many of its last replies are the levels at the end."""
    with open(path, "rb") as source:
        text = subprocess.run([program, "run", str(workers)], stdin=source, capture_output=True, text=True, check=True).stdout
    levels = {int(words[1]): int(words[3]) for words in map(str.split, text.splitlines()) if words[:1] == ["vertex"]}
    (met,), points = points_met(text)
    (_, replies), = replies_of(text)
    return met[1], points, sum(levels[vertex] == level for vertex, level in replies[-LONG:])


def main():
    here = os.path.dirname(os.path.abspath(__file__))
    parser = argparse.ArgumentParser(description=__doc__.split("\n", 1)[0])
    parser.add_argument("--program", default=os.path.join(here, "../crates/kcore/out/kcore"))
    parser.add_argument("--other")
    parser.add_argument("--runs", type=int, default=3)
    parser.add_argument("--workers", type=int, default=1)
    parser.add_argument("--edges", type=int, default=1_000_000)
    words = parser.parse_args()
    programs = {"": words.program, "the other ": words.other} if words.other else {"": words.program}
    draw = random.Random(17)
    edges = [tuple(draw.sample(range(VERTICES), 2)) for _ in range(words.edges)]
    asks = {length: [[draw.randrange(VERTICES) for _ in range(length)] for _ in range(READERS)] for length in (SHORT, LONG)}
    power = power_edges(SCALE, words.edges // 2, 7)
    random.Random(11).shuffle(power)
    with tempfile.TemporaryDirectory() as folder:
        paths = {"without readers": [], "with eight readers": asks[SHORT], "with eight long ones": asks[LONG]}
        for name, readers in paths.items():
            paths[name] = os.path.join(folder, name)
            write_input(paths[name], VERTICES, edges, readers)
        runs = {of + name: (program, path) for name, path in paths.items() for of, program in programs.items()}
        best = {name: float("inf") for name in runs}
        for _ in range(words.runs):
            for name, (program, path) in runs.items():
                best[name] = min(best[name], seconds(program, words.workers, path))
        for name, time_taken in best.items():
            without = best[("the other " if name.startswith("the other ") else "") + "without readers"]
            print(f"{name:32} {time_taken:8.3f} s  {time_taken / without:6.3f}")
        path = os.path.join(folder, "power")
        write_input(path, 1 << SCALE, power, [busiest(power)])
        for _ in range(words.runs):
            for of, program in programs.items():
                met, points, last = seen(program, words.workers, path)
                print(f"{of + 'program':20} meets {met} of {points} points; {last} of the last {LONG} replies are the levels at the end")


if __name__ == "__main__":
    main()
