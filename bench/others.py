#!/usr/bin/env python3
"""What a small batch costs, maintained by kcore and computed again by igraph and networkx. Runs by hand.

    bench/others.py [--program PATH] [--runs N] [--batches N] [--keep DIR]

The graph has 1,000,000 edges between 100,000 vertices, each pair as likely as another, from a fixed seed. Then N
(2,000) batches each take ten edges out and put ten in. Prints

- for kcore the time of a batch: the difference of two runs with one worker, with the batches and without, by their
  number;
- for igraph and for networkx, if they are installed, the time of the one call that computes the coreness of every
  vertex of the graph. That is the cost of each batch if all is computed again. Reading the input and building the graph
  isn't counted.

Each is the best of several runs (3). (On Debian and Ubuntu: apt install python3-igraph python3-networkx.)
"""
import argparse
import os
import random
import tempfile
import time

from bench import in_batches, input_path, run_once, signed, uniform_edges, write_input

VERTICES, EDGES, SMALL = 100_000, 1_000_000, 10


def best(call, runs):
    seconds = []
    for _ in range(runs):
        start = time.perf_counter()
        call()
        seconds.append(time.perf_counter() - start)
    return min(seconds)


def time_igraph(edges, runs):
    import igraph
    graph = igraph.Graph(VERTICES, edges)
    return f"igraph {igraph.__version__}", best(graph.coreness, runs)


def time_networkx(edges, runs):
    import networkx
    graph = networkx.Graph()
    graph.add_nodes_from(range(VERTICES))
    graph.add_edges_from(edges)
    return f"networkx {networkx.__version__}", best(lambda: networkx.core_number(graph), runs)


def time_kcore(program, folder, edges, coming, runs):
    first = in_batches(edges, 100_000)
    small = ["".join(f"- {a} {b}\n" for a, b in edges[i:i + SMALL]) + signed(coming[i:i + SMALL])
             for i in range(0, len(coming), SMALL)]
    write_input(folder, "graph", VERTICES, first)
    write_input(folder, "graph-and-batches", VERTICES, first + small)
    without, with_batches = (min(run_once(program, ["run", "1"], input_path(folder, name))[0] for _ in range(runs))
                             for name in ("graph", "graph-and-batches"))
    return (with_batches - without) / len(small)


def main():
    here = os.path.dirname(os.path.abspath(__file__))
    parser = argparse.ArgumentParser(description=__doc__, formatter_class=argparse.RawDescriptionHelpFormatter)
    parser.add_argument("--program", default=os.path.join(here, "..", "crates", "kcore", "out", "kcore"))
    parser.add_argument("--runs", type=int, default=3)
    parser.add_argument("--batches", type=int, default=2_000)
    parser.add_argument("--keep", help="a folder for the inputs")
    options = parser.parse_args()
    edges = uniform_edges(VERTICES, EDGES + SMALL * options.batches, 7)
    random.Random(11).shuffle(edges)
    with tempfile.TemporaryDirectory() as scratch:
        folder = options.keep or scratch
        os.makedirs(folder, exist_ok=True)
        seconds = time_kcore(options.program, folder, edges[:EDGES], edges[EDGES:], options.runs)
    print(f"{'kcore, a batch':<26}{1000 * seconds:12.3f} ms")
    for measure in (time_igraph, time_networkx):
        try:
            name, seconds = measure(edges[:EDGES], options.runs)
            print(f"{name + ', all again':<26}{1000 * seconds:12.3f} ms")
        except ImportError as missing:
            print(missing)


if __name__ == "__main__":
    main()
