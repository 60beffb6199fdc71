#!/usr/bin/env python3
"""Time and memory of `kcore run 1` and `kcore exact`, beside another program with the same command line. Runs by hand.

    bench/bench.py [--program PATH] [--other PATH] [--runs N] [--keep DIR] [--only NAME,NAME] [--workers W,W]

Makes its own inputs from fixed seeds, and runs each program on each of them N times (5) with one worker. Takes the best
run, and prints seconds of processor time, peak memory, and the ratio of the two programs. With numbers of workers it
runs the first program alone with each of them, by turns. It then prints the seconds that pass in the best run of each
number, and their ratio to the first number. It judges nothing: times on a shared machine are ratios at best.

Whole runs, each with all its edges inserted:

- uniform     1,000,000 edges between 100,000 vertices, each pair as likely as another, in one batch
- snap1000    the same edges as SNAP text (two numbers and a tab, in any order), in batches of 1,000 items
- snap10000   the same in batches of 10,000
- snap100000  the same in batches of 100,000
- power       1,048,576 edges between 65,536 vertices, degrees by a power law (R-MAT), in one batch
- grid        998,284 edges of a grid of 707 times 707 vertices, as SNAP text in one batch
- power1000, power100000, grid1000, grid100000     their edges in any order, in batches of that size
- uniform-window, power-window, grid-window        half of the edges in any order in batches of 100,000; then each
              batch takes the oldest 10,000 out and puts the next 10,000 in, until all have been there
- long        8,000,000 edges between 1,048,576 vertices, each pair as likely as another, in batches of 1,000,000: the
              rounds are long
- fours       999,996 edges, the complete graphs of 166,666 times four of 1,048,576 vertices, as SNAP text in one
              batch: the rounds are long and many, and passes over neighbours short
- greatest    1,000,000 edges between 16,777,216 vertices, each pair as likely as another, in one batch
- exact       2,000,000 edges between 262,144 vertices, each pair as likely as another, in two batches: the command
              `exact`

Parts of a run, each the difference of two runs that differ in nothing else:

- read        the lines of grid: a batch of them that is refused at its last line, less no batch
- clean       the items of grid when all edges are there: a second batch of them, less one that is refused at its last
              line
- print       the vertex lines of grid: no batch, less no batch for one vertex
- three       these three together
- link+raise  the rest of grid: its edges come into the graph, and the levels rise
"""
import argparse
import multiprocessing
import os
import random
import subprocess
import sys
import tempfile
import time

WHOLE = (
    "uniform", "snap1000", "snap10000", "snap100000", "power", "grid",
    "power1000", "power100000", "grid1000", "grid100000",
    "uniform-window", "power-window", "grid-window",
    "long", "fours", "greatest", "exact",
)
PARTS = ("read", "clean", "print", "three", "link+raise")
SIDE = 707

# The words of a row's command, where they aren't `run 1`.
WORDS = {"exact": ["exact"]}


def uniform_edges(n, m, seed):
    draw = random.Random(seed)
    edges = set()
    while len(edges) < m:
        a, b = draw.randrange(n), draw.randrange(n)
        if a != b:
            edges.add((min(a, b), max(a, b)))
    return sorted(edges)


def power_edges(scale, m, seed):
    draw = random.Random(seed)
    edges = set()
    while len(edges) < m:
        a = b = 0
        for _ in range(scale):
            r = draw.random()
            a, b = 2 * a, 2 * b
            if 0.57 <= r < 0.76:
                b += 1
            elif 0.76 <= r < 0.95:
                a += 1
            elif r >= 0.95:
                a, b = a + 1, b + 1
        if a != b:
            edges.add((min(a, b), max(a, b)))
    return sorted(edges)


def grid_edges(side):
    for x in range(side):
        for y in range(side):
            v = x * side + y
            if y + 1 < side:
                yield v, v + 1
            if x + 1 < side:
                yield v, v + side


def signed(edges):
    return "".join(f"+ {a} {b}\n" for a, b in edges)


def snap(edges):
    return "".join(f"{a}\t{b}\n" for a, b in edges)


def in_batches(edges, size):
    return [snap(edges[i:i + size]) for i in range(0, len(edges), size)]


def in_window(edges, size, filling):
    """Half of the edges come in in batches of one size, and then the oldest leave as others come in, so many a batch."""
    half = len(edges) // 2
    yield from in_batches(edges[:half], filling)
    for i in range(half, len(edges), size):
        coming = edges[i:i + size]
        leaving = edges[i - half:i - half + len(coming)]
        yield "".join(f"- {a} {b}\n" for a, b in leaving) + signed(coming)


def write_input(folder, name, n, batches, last="end"):
    """Each batch is the text of its lines; the last ends with this line."""
    ends = ["end"] * (len(batches) - 1) + [last]
    with open(input_path(folder, name), "w") as file:
        file.write(f"kcore 1\nvertices {n}\n")
        for lines, end in zip(batches, ends):
            file.write(f"batch\n{lines}{end}\n")


def make_inputs(folder):
    uniform = uniform_edges(100_000, 1_000_000, 7)
    write_input(folder, "uniform", 100_000, [signed(uniform)])
    random.Random(11).shuffle(uniform)
    for size in (1_000, 10_000, 100_000):
        write_input(folder, f"snap{size}", 100_000, in_batches(uniform, size))
    power, grid_list = power_edges(16, 1 << 20, 7), list(grid_edges(SIDE))
    write_input(folder, "power", 1 << 16, [signed(power)])
    n, grid = SIDE * SIDE, snap(grid_list)
    for name, vertices, edges in ("power", 1 << 16, power), ("grid", n, grid_list):
        random.Random(11).shuffle(edges)
        for size in (1_000, 100_000):
            write_input(folder, f"{name}{size}", vertices, in_batches(edges, size))
    for name, vertices, edges in ("uniform", 100_000, uniform), ("power", 1 << 16, power), ("grid", n, grid_list):
        write_input(folder, f"{name}-window", vertices, list(in_window(edges, 10_000, 100_000)))
    write_input(folder, "grid", n, [grid])
    write_input(folder, "grid-refused", n, [grid], last="stop")
    write_input(folder, "grid-twice", n, [grid, grid])
    write_input(folder, "grid-twice-refused", n, [grid, grid], last="stop")
    write_long(folder)
    write_fours(folder)
    write_input(folder, "greatest", 1 << 24, [signed(uniform_edges(1 << 24, 1_000_000, 19))])
    uniform = uniform_edges(1 << 18, 2_000_000, 13)
    write_input(folder, "exact", 1 << 18, [signed(uniform[:1_000_000]), signed(uniform[1_000_000:])])
    write_input(folder, "none", n, [])
    write_input(folder, "one", 1, [])


def write_long(folder):
    """Pairs by chance, some of which come twice."""
    draw = random.Random(5)
    bits, size = 20, 1_000_000
    with open(input_path(folder, "long"), "w") as file:
        file.write(f"kcore 1\nvertices {1 << bits}\n")
        for _ in range(8):
            pairs = ((draw.getrandbits(bits), draw.getrandbits(bits)) for _ in range(size))
            file.write("batch\n" + snap(pair for pair in pairs if pair[0] != pair[1]) + "end\n")


def write_fours(folder):
    draw = random.Random(3)
    n = 1 << 20
    vertices = list(range(n))
    draw.shuffle(vertices)
    fours = (vertices[i:i + 4] for i in range(0, 4 * 166_666, 4))
    edges = [(four[i], four[j]) for four in fours for i in range(4) for j in range(i)]
    draw.shuffle(edges)
    write_input(folder, "fours", n, [snap(edges)])


def input_path(folder, name):
    return os.path.join(folder, f"{name}.kc")


def run_once(program, words, path):
    """Seconds of processor time, KiB of peak memory, and the seconds that pass, of one run."""
    with open(path, "rb") as source, open(os.devnull, "wb") as sink:
        start = time.monotonic()
        child = subprocess.Popen([program, *words], stdin=source, stdout=sink, stderr=subprocess.DEVNULL)
        _, status, usage = os.wait4(child.pid, 0)
        passed = time.monotonic() - start
        child.returncode = os.waitstatus_to_exitcode(status)
    if child.returncode not in (0, 1):
        sys.exit(f"{program} ended with {child.returncode} on {path}")
    return usage.ru_utime + usage.ru_stime, usage.ru_maxrss, passed


def best(program, folder, name, runs):
    words, path = WORDS.get(name, ["run", "1"]), input_path(folder, name)
    results = [run_once(program, words, path) for _ in range(runs)]
    return min(seconds for seconds, _, _ in results), max(memory for _, memory, _ in results)


def compare_workers(program, folder, runs, names, workers):
    print(f"{'row':<16}" + "".join(f"{'run ' + count:>14}{'ratio':>8}" for count in workers))
    for name in names:
        if name not in WHOLE or name in WORDS:
            continue
        path = input_path(folder, name)
        best_of = dict.fromkeys(workers, float("inf"))
        for _ in range(runs):
            for count in workers:
                best_of[count] = min(best_of[count], run_once(program, ["run", count], path)[2])
        first = best_of[workers[0]]
        print(f"{name:<16}" + "".join(f"{best_of[count]:>12.3f} s{best_of[count] / first:>8.2f}" for count in workers), flush=True)


def measure(program, folder, runs, names):
    """Seconds and KiB of each row."""
    runs_of = {name: best(program, folder, name, runs) for name in names if name in WHOLE}
    if any(name in PARTS for name in names):
        for name in ("grid", "grid-refused", "grid-twice", "grid-twice-refused", "none", "one"):
            if name not in runs_of:
                runs_of[name] = best(program, folder, name, runs)
        less = {
            "read": ("grid-refused", "none"),
            "clean": ("grid-twice", "grid-twice-refused"),
            "print": ("none", "one"),
        }
        for part, (more, base) in less.items():
            runs_of[part] = runs_of[more][0] - runs_of[base][0], runs_of[more][1]
        three = sum(runs_of[part][0] for part in less)
        runs_of["three"] = three, runs_of["grid-twice"][1]
        runs_of["link+raise"] = runs_of["grid"][0] - three - runs_of["one"][0], runs_of["grid"][1]
    return {name: runs_of[name] for name in names}


def main():
    here = os.path.dirname(os.path.abspath(__file__))
    parser = argparse.ArgumentParser(description=__doc__, formatter_class=argparse.RawDescriptionHelpFormatter)
    parser.add_argument("--program", default=os.path.join(here, "..", "crates", "kcore", "out", "kcore"))
    parser.add_argument("--other", help="a program with the same command line to compare with")
    parser.add_argument("--runs", type=int, default=5)
    parser.add_argument("--keep", help="a folder for the inputs; those that are there are used again")
    parser.add_argument("--only", help="these rows alone, parted by commas")
    parser.add_argument("--workers", help="numbers of workers to compare, parted by commas")
    options = parser.parse_args()
    names = options.only.split(",") if options.only else list(WHOLE + PARTS)
    if unknown := [name for name in names if name not in WHOLE + PARTS]:
        sys.exit(f"no row is called {unknown[0]}; rows are {', '.join(WHOLE + PARTS)}")

    with tempfile.TemporaryDirectory() as scratch:
        folder = options.keep or scratch
        os.makedirs(folder, exist_ok=True)
        # The input that came with the last row, and the last that is made.
        if not all(os.path.exists(input_path(folder, name)) for name in ("long", "fours", "greatest", "exact", "one")):
            print("making the inputs ..", flush=True)
            # In a process of its own: the memory of this one would count as that of the programs that it starts.
            maker = multiprocessing.Process(target=make_inputs, args=(folder,))
            maker.start()
            maker.join()
            if maker.exitcode != 0:
                sys.exit("the inputs couldn't be made")

        if options.workers:
            program = os.path.abspath(options.program)
            compare_workers(program, folder, options.runs, names, options.workers.split(","))
            return

        programs = [os.path.abspath(path) for path in (options.program, options.other) if path]
        tables = [measure(program, folder, options.runs, names) for program in programs]

        header = f"{'row':<12}{'program':>12}{'MiB':>8}"
        print(header + (f"{'other':>12}{'MiB':>8}{'ratio':>9}" if options.other else ""))
        for name in names:
            seconds, memory = tables[0][name]
            row = f"{name:<12}{seconds:>10.3f} s{memory / 1024:>8.1f}"
            if options.other:
                other, other_memory = tables[1][name]
                row += f"{other:>10.3f} s{other_memory / 1024:>8.1f}{seconds / max(other, 1e-9):>9.2f}"
            print(row, flush=True)


if __name__ == "__main__":
    main()
