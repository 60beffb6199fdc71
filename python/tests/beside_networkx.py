#!/usr/bin/env python3
"""Compares every function of the package, and a stream, with networkx on the karate club and on a large random graph.

    python3 python/tests/beside_networkx.py [--edges M] [--nodes N] [--batches B]

M (1,000,000) edges between N (100,000) nodes take some minutes and 2 GB, most of both for networkx. `kcore` is imported as
docs/PYTHON.md says. Prints a line for each comparison, and ends with 1 at the first that fails. The gate runs it on small graphs
(`test_beside_networkx.py`).
"""
import argparse
import random
import sys
import time

import kcore
import networkx


class Differs(Exception):
    """An answer isn't the one of networkx, or isn't within its promise."""


def same(mine, theirs, what):
    if mine != theirs:
        raise Differs(f"{what} isn't that of networkx")


def holds(fact, what):
    if not fact:
        raise Differs(what)


def check_bounds(bounds, cores, times, what):
    for node, core in cores.items():
        low, est, high, _ = bounds[node]
        fits = low <= core <= high and est <= 2 * core and core <= times * est
        holds(fits, f"{what}: the coreness of {node} is {core}, and its bounds {bounds[node]}")


def standing(graph, say):
    """Compares what the functions over a graph that stands still return."""
    cores, edges = networkx.core_number(graph), list(graph.edges)
    most = max(cores.values())
    same(list(kcore.core_number(graph).items()), list(cores.items()), "core_number of a graph")
    same(kcore.core_number(edges), {node: core for node, core in cores.items() if core}, "core_number of edges")
    say("core_number of a graph and of its edges")
    same(kcore.degeneracy(graph), most, "degeneracy")
    for k in None, max(1, most - 1):
        mine, theirs = kcore.k_core(graph, k), networkx.k_core(graph, k)
        holds(networkx.utils.graphs_equal(mine, theirs), f"k_core with k = {k} isn't that of networkx")
        say(f"degeneracy, and k_core with k = {k or most}: {len(mine):,} nodes, {mine.number_of_edges():,} edges")
    for profile, times in (2, 2), (1, 3):
        bounds = kcore.core_bounds(graph, profile=profile, workers=2)
        check_bounds(bounds, cores, times, f"core_bounds in profile {profile}")
        exact = sum(bounds[v].high == core for v, core in cores.items())
        say(f"core_bounds in profile {profile} hold each coreness; high is it for {exact:,} of {len(cores):,} nodes")
    out = kcore.orientation(graph)
    directed = networkx.DiGraph((a, b) for a, others in out.items() for b in others)
    directed.add_nodes_from(graph)
    holds(networkx.is_directed_acyclic_graph(directed), "the orientation has a cycle")
    same({frozenset(edge) for edge in directed.edges}, {frozenset(edge) for edge in edges}, "the orientation's set of edges")
    same(directed.number_of_edges(), len(edges), "the orientation's number of edges")
    holds(all(len(others) <= 4 * cores[node] for node, others in out.items()), "a node has more out-neighbours than 4 times its coreness")
    colours = kcore.coloring(graph)
    holds(all(colours[a] != colours[b] for a, b in edges), "two neighbours have one colour")
    say(f"orientation and coloring: {max(colours.values()) + 1} colours")
    part = kcore.densest(graph)
    same(part.edges, graph.subgraph(part.nodes).number_of_edges(), "the number of edges of the dense part")
    # (no part is denser than the degeneracy, and the innermost core is half as dense as that at least)
    holds(2 * part.density * len(theirs) >= theirs.number_of_edges(), "the dense part is less than half as dense as a core")
    c = kcore.certificate(graph)
    verdict = kcore.check(c)
    holds(verdict and verdict.line == f"certified vertices {len(graph)} edges {len(edges)}", f"the certificate: {verdict.line}")
    say(f"densest: {part.density:.2f} edges for each of {len(part.nodes):,} nodes; {verdict.line}")


def changing(graph, batches, seed, say):
    """Puts half of the edges in at once, and then lets some leave and others come in, and compares after each batch."""
    draw, edges = random.Random(seed), list(graph.edges)
    draw.shuffle(edges)
    half = len(edges) // 2
    held, left = edges[:half], edges[half:]
    now = networkx.Graph()
    now.add_nodes_from(graph)
    leaving, coming = [], held
    with kcore.Stream(nodes=graph, workers=2) as stream:
        for number in range(batches + 1):
            batch = stream.apply(remove=leaving, add=coming)
            now.remove_edges_from(leaving)
            now.add_edges_from(coming)
            did = batch.removed, batch.added, stream.edge_count
            same(did, (len(leaving), len(coming), now.number_of_edges()), f"what batch {batch.number} did")
            check_bounds(stream.bounds(), networkx.core_number(now), 2, f"after batch {batch.number}")
            say(f"stream, batch {batch.number}: {batch.removed:,} edges out, {batch.added:,} in, {batch.moved:,} moves in "
                f"{len(batch.groups):,} groups; each bound holds")
            draw.shuffle(held)
            count = max(1, half // (2 * batches))
            leaving, held = held[:count], held[count:]
            coming, left = left[:2 * count], left[2 * count:] + leaving
            held = held + coming
        if len(now) > 2:
            node = max(now.degree, key=lambda pair: pair[1])[0]
            same(stream.isolate(node).removed, now.degree[node], "what isolate removed")
            now.remove_edges_from(list(now.edges(node)))
        cores = networkx.core_number(now)
        check_bounds(stream.bounds(), cores, 2, "at the end")
    check_bounds({node: vertex.bounds for node, vertex in stream.result.items()}, cores, 2, "the result")
    same(kcore.core_number(now), cores, "core_number of what the stream holds")
    say("the stream's end: all lines as they were kept, each bound holds")


def main():
    parser = argparse.ArgumentParser(description=__doc__, formatter_class=argparse.RawDescriptionHelpFormatter)
    parser.add_argument("--edges", type=int, default=1_000_000)
    parser.add_argument("--nodes", type=int, default=100_000)
    parser.add_argument("--batches", type=int, default=4)
    chosen = parser.parse_args()
    began = time.monotonic()

    def say(text):
        print(f"{time.monotonic() - began:7.1f} s  {text}", flush=True)

    say(f"{kcore.program()}; networkx {networkx.__version__}, Python {sys.version.split()[0]}")
    try:
        graphs = {"the karate club": networkx.karate_club_graph(),
                  "a random graph": networkx.gnm_random_graph(chosen.nodes, chosen.edges, seed=1)}
        for name, graph in graphs.items():
            say(f"{name}: {len(graph):,} nodes, {graph.number_of_edges():,} edges")
            standing(graph, say)
            changing(graph, chosen.batches, 2, say)
    except Differs as fault:
        sys.exit(f"beside_networkx.py: {fault}")
    say("all as in networkx")


if __name__ == "__main__":
    main()
