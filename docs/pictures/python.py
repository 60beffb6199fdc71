#!/usr/bin/env python3
"""Makes the pictures of docs/PYTHON.md anew, but for that of the page, which `python/tests/view_screenshot.sh` makes.

    KCORE=PROGRAM docs/pictures/python.py

Needs matplotlib and networkx.
"""
import os
import random
import sys

HERE = os.path.dirname(os.path.abspath(__file__))
sys.path.insert(0, os.path.join(HERE, "..", "..", "python", "src"))

import matplotlib  # noqa: E402
matplotlib.use("Agg")
import matplotlib.pyplot as plt  # noqa: E402
import networkx as nx  # noqa: E402
import kcore  # noqa: E402

BLUE, ORANGE, GREY = "#2b6cb0", "#dd6b20", "#a0aec0"


def save(figure, name):
    figure.tight_layout()
    # Without a date and with fixed names, so that the same input makes the same file.
    plt.rcParams["svg.hashsalt"] = "kcore"
    figure.savefig(os.path.join(HERE, name), metadata={"Date": None})


def karate():
    graph = nx.karate_club_graph()
    cores, bounds = kcore.core_number(graph), kcore.core_bounds(graph)
    nodes = sorted(graph, key=lambda v: (-cores[v], -bounds[v].level))
    figure, (left, right) = plt.subplots(1, 2, figsize=(11, 4.2))
    places = nx.spring_layout(graph, seed=4)
    nx.draw_networkx(graph, places, ax=left, node_color=[cores[v] for v in graph], cmap="viridis", edge_color=GREY,
                     font_color="white", font_size=8, node_size=260)
    left.set_axis_off()
    left.set_title("coloured by coreness", fontsize="medium")
    right.vlines(range(len(nodes)), [bounds[v].low for v in nodes], [bounds[v].high for v in nodes], color=BLUE, alpha=0.35,
                 linewidth=5, label="low to high")
    right.plot([bounds[v].est for v in nodes], "_", color=BLUE, markersize=9, label="est")
    right.plot([cores[v] for v in nodes], "o", color=ORANGE, markersize=4, label="coreness")
    right.set_xticks(range(len(nodes)), nodes, fontsize=6)
    right.set(xlabel="node", ylim=(0, None))
    right.yaxis.get_major_locator().set_params(integer=True)
    right.legend(frameon=False, fontsize="small")
    save(figure, "python_karate.svg")


def stream():
    edges = power_edges(8, 2000, 5)
    changes = [(edges[start:start + 50], []) for start in range(0, len(edges), 50)]
    changes += [(leaving, coming) for coming, leaving in changes]
    watched, times, moved, rows, graph = 0, [], [], [], nx.Graph()
    with kcore.Stream(nodes=256) as stream:
        for coming, leaving in changes:
            batch = stream.apply(add=coming, remove=leaving)
            graph.add_edges_from(coming)
            graph.remove_edges_from(leaving)
            times.append(batch.number)
            moved.append(batch.moved)
            rows.append((*stream.bounds(watched), nx.core_number(graph)[watched]) if watched in graph else (0, 0, 0, 0, 0))
    figure, (left, right) = plt.subplots(1, 2, figsize=(11, 3.8))
    low, est, high, _, cores = zip(*rows)
    left.fill_between(times, low, high, step="mid", color=BLUE, alpha=0.2, label="low to high")
    left.step(times, est, where="mid", color=BLUE, label="est")
    left.step(times, cores, where="mid", color=ORANGE, label="coreness, computed anew each time")
    left.set(xlabel="batch", ylabel=f"coreness of node {watched}", ylim=(0, None))
    left.legend(frameon=False, fontsize="small", loc="upper left")
    right.bar(times, moved, color=ORANGE)
    right.set(xlabel="batch", ylabel="nodes that moved")
    for axes in (left, right):
        axes.spines[["top", "right"]].set_visible(False)
        axes.yaxis.get_major_locator().set_params(integer=True)
    save(figure, "python_stream.svg")


def power_edges(scale, count, seed):
    """Edges whose degrees go by a power law, in any order."""
    draw, edges = random.Random(seed), {}
    while len(edges) < count:
        a = b = 0
        for _ in range(scale):
            right, down = draw.choice(((0, 0), (0, 0), (0, 0), (0, 1), (1, 0), (1, 1)))
            a, b = 2 * a + right, 2 * b + down
        if a != b:
            edges[min(a, b), max(a, b)] = None
    edges = list(edges)
    draw.shuffle(edges)
    return edges


if __name__ == "__main__":
    karate()
    stream()
