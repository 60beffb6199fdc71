#!/usr/bin/env python3
"""Pictures of texts of `kcore`.

    draw.py run [--exact EXACT] TEXT PICTURE      bounds by rank of vertex, and moves and groups by batch
    draw.py heat TEXT PICTURE                     how many vertices stand on each level after each batch
    draw.py readers [--reader R] TEXT PICTURE     the replies to a reader by batch, and how many of them it had by then
    draw.py graph INPUT TEXT PICTURE              the last graph of an input, coloured by `high` or by coreness

TEXT is what `kcore run` printed, INPUT what it read. For `graph` TEXT may be a text of `kcore exact`, and then colours
are corenesses; --exact draws the corenesses of such a text over the band from `low` to `high`. Vertices without edges
are left out of curves and of large graphs. A graph of up to 150 vertices has numbers on its vertices. One of up to
2,000 has dots, larger ones for higher degrees.

For `readers` a reply is a dot on the line of its vertex's levels. It stands at the batch of the earliest point of the
history that explains it. --reader picks another reader than 0.

PICTURE ends with .svg, .png or .pdf. Needs matplotlib and numpy (on Debian and Ubuntu: apt install python3-matplotlib).
The files of one picture have to be of one graph. Exit number: 0 the picture is written, 1 a file can't be read, written
or used, 2 the words of the command line are wrong, 3 matplotlib isn't there.
"""
import argparse
import collections
import sys

try:
    import matplotlib
    matplotlib.use("Agg")
    import matplotlib.pyplot as plt
    import numpy as np
except ImportError as missing:
    print(f"draw.py: {missing}; on Debian and Ubuntu: apt install python3-matplotlib", file=sys.stderr)
    sys.exit(3)

ENDINGS = (".svg", ".png", ".pdf")

# Up to this vertices have numbers, and up to the second a drawing of a graph shows something.
MOST_NUMBERS = 150
MOST_VERTICES = 2_000

# Above this a bar for each batch is too thin to see.
MOST_BARS = 60

# A picture of a reader has the lines of at most so many vertices.
MOST_ASKED = 6

# An axis whose values span this factor is logarithmic.
DECADES = 100

BLUE, ORANGE, GREY, GREEN = "#2b6cb0", "#dd6b20", "#a0aec0", "#2f855a"


class Unusable(Exception):
    """A file can't be used; the text says why."""


def words_of(path, kind):
    """The words of each line of a text of this kind, but for comments."""
    with open(path, encoding="utf-8", errors="replace") as file:
        lines = [line.split() for line in file if line.strip() and not line.startswith("#")]
    if lines and lines[0][0] == "refused":
        raise Unusable(f"{path}: the program refused its input, `{' '.join(lines[0])}`")
    if not lines or lines[0] != [f"kcore-{kind}", "1"]:
        raise Unusable(f"{path} isn't a text of `kcore {kind}`: its first line isn't `kcore-{kind} 1`")
    if lines[-1] != ["end"]:
        raise Unusable(f"{path} breaks off: its last line isn't `end`")
    return lines


def columns_of(lines):
    """The numbers of the vertex lines, by name."""
    rows = [words for words in lines if words[0] == "vertex"]
    return dict(zip(rows[0][2::2], np.array([[int(word) for word in words[3::2]] for words in rows], dtype=int).T))


class RunText:
    """What a run text says: a row of numbers for each vertex; for each batch its moves and groups, and the levels that changed;
    for each group its batch and these levels; for each reader its replies."""

    def __init__(self, path):
        lines = words_of(path, "run")
        self.moves, self.groups, self.changes, self.history, self.replies = [], [], [], [], []
        for words in lines:
            if words[0] == "batch":
                self.moves.append(0)
                self.groups.append(0)
                self.changes.append([])
            elif words[0] == "group":
                if not words[2].isdigit():
                    raise Unusable(f"{path} has names in place of numbers: take the text that the program printed")
                self.moves[-1] += len(words) - 3
                self.groups[-1] += 1
                moved = [[int(it) for it in word.split(":")] for word in words[3:]]
                self.changes[-1] += moved
                self.history.append((len(self.moves), moved))
            elif words[0] == "reader":
                self.replies.append([tuple(int(it) for it in word.split("=")) for word in words[2:]])
        self.columns = columns_of(lines)


def edges_of(path, refused):
    """The number of vertices of an input, and its edges after the last batch, where the batches with these numbers are refused."""
    lines = lines_of_input(path)
    if next(lines, [""])[0] != "kcore":
        raise Unusable(f"{path} isn't an input of `kcore`: its first line isn't `kcore 1` or `kcore 2`")
    words = next(lines, [])
    if words[:1] != ["vertices"] or not words[-1].isdigit():
        raise Unusable(f"{path} isn't an input of `kcore`: its second line isn't `vertices N`")
    edges, batch, number, count = set(), None, 0, int(words[-1])
    for words in lines:
        if batch is None and not number and words[0] == "ask":
            continue
        if batch is None:
            # Any line begins a batch; one that isn't `batch` is a fault of it.
            batch, number = set(edges), number + 1
            if words == ["batch"]:
                continue
        if words == ["end"]:
            edges, batch = edges if number in refused else batch, None
        elif number not in refused:
            try:
                change(batch, words, count)
            except ValueError:
                raise Unusable(f"{path}: batch {number} has the line `{' '.join(words)[:40]}`, for which it would be refused, and the text doesn't"
                               " say so: is the text of this input?") from None
    return count, edges


def lines_of_input(path):
    """The words of each line of an input, but for empty lines and comments."""
    with open(path, encoding="utf-8", errors="replace") as file:
        for line in file:
            words = line.split()
            if words and not words[0].startswith("#"):
                yield words


def change(edges, words, count):
    """What one item does to a set of edges between this many vertices. Raises ValueError for a line that is no item."""
    ends = tuple(sorted(int(word) for word in words[words[0] in ("+", "-", "x"):]))
    if len(ends) != 2 - (words[0] == "x") or not 0 <= ends[0] <= ends[-1] < count:
        raise ValueError
    if words[0] == "x":
        edges -= {edge for edge in edges if ends[0] in edge}
    elif words[0] == "-":
        edges.discard(ends)
    elif ends[0] != ends[1]:
        edges.add(ends)


def refused_batches(path):
    with open(path, encoding="utf-8", errors="replace") as file:
        rows = (line.split() for line in file)
        # (`exact` has them as notes)
        rows = (words[words[:1] == ["#"]:] for words in rows)
        return {int(words[1]) for words in rows if words[:1] == ["batch"] and words[2:3] == ["refused"]}


def spans_decades(values):
    """Whether the values above 0 span so much that an axis of them is better logarithmic."""
    above = values[values > 0]
    return len(above) > 0 and above.max() >= DECADES * above.min()


def steps(order, *columns):
    """Where each run of equal rows begins, with its values, for a plot by steps."""
    rows = np.stack([column[order] for column in columns])
    first = np.flatnonzero(np.append(True, (rows[:, 1:] != rows[:, :-1]).any(axis=0)))
    # (ranks count from 1, so that they have a place on a logarithmic axis)
    return np.append(first, len(order)) + 1, *(np.append(row[first], row[first[-1]]) for row in rows)


def draw_bounds(axes, columns, coreness):
    """Bounds by rank of vertex, the highest first, and the corenesses where there are any."""
    alive = np.flatnonzero(columns["level"] > 0)
    if not len(alive):
        axes.text(0.5, 0.5, "no vertex has an edge", ha="center", transform=axes.transAxes)
        return
    high, level = columns["high"], columns["level"]
    order = alive[np.lexsort((-level[alive], -high[alive]))]
    at, low, est, top = steps(order, columns["low"], columns["est"], high)
    axes.fill_between(at, low, top, step="post", color=BLUE, alpha=0.2, label="low to high: the coreness lies here")
    axes.step(at, est, where="post", color=BLUE, linewidth=1, label="est")
    if coreness is not None:
        axes.plot(np.arange(1, len(order) + 1), coreness[order], ".", color=ORANGE, markersize=1.5, rasterized=True, label="coreness")
    axes.set(xlabel="vertices with edges, highest first", ylabel="coreness", ylim=(0, None))
    if spans_decades(at):
        axes.set_xscale("log")
    if spans_decades(np.append(low, top)):
        axes.set_yscale("log")
        axes.set_ylim(0.8, None)
    else:
        axes.yaxis.get_major_locator().set_params(integer=True)
    axes.legend(frameon=False, loc="lower center", bbox_to_anchor=(0.5, 1), ncol=3, fontsize="small")


def draw_batches(axes, text):
    """Moves and groups by batch."""
    batches = np.arange(1, len(text.moves) + 1)
    rows = (-0.2, text.moves, ORANGE, "vertices that moved"), (0.2, text.groups, GREY, "groups that moved together")
    for shift, numbers, colour, label in rows:
        if len(batches) <= MOST_BARS:
            axes.bar(batches + shift, numbers, width=0.4, color=colour, label=label)
        else:
            axes.plot(batches, numbers, color=colour, linewidth=1, label=label)
    axes.set(xlabel="batch", ylabel="number", ylim=(0, None))
    if spans_decades(np.array(text.moves + text.groups)):
        axes.set_yscale("symlog", linthresh=1)
    else:
        axes.yaxis.get_major_locator().set_params(integer=True)
    axes.xaxis.get_major_locator().set_params(integer=True, min_n_ticks=1)
    axes.legend(frameon=False, loc="lower center", bbox_to_anchor=(0.5, 1), ncol=2, fontsize="small")


def corenesses_beside(path, text_path, columns):
    """The corenesses of a text of `exact`, whose bounds have to be those of the run text with these columns."""
    exact = columns_of(words_of(path, "exact"))
    check_count(path, len(exact["coreness"]), text_path, len(columns["level"]))
    for name in "low", "est", "high":
        differ = np.flatnonzero(exact[name] != columns[name])
        if len(differ):
            v = differ[0]
            raise Unusable(f"{path} and {text_path} are of two different inputs: vertex {v} has {name} {exact[name][v]} in the first and"
                           f" {columns[name][v]} in the second")
    return exact["coreness"]


def check_count(path, count, other, others):
    if count != others:
        raise Unusable(f"{path} and {other} are of two different graphs: {count:,} vertices and {others:,}")


def draw_run(text, coreness, picture):
    figure, (left, right) = plt.subplots(1, 2, figsize=(11, 4.2))
    draw_bounds(left, text.columns, coreness)
    draw_batches(right, text)
    for axes in left, right:
        axes.spines[["top", "right"]].set_visible(False)
    save(figure, picture)


def draw_heat(text, picture):
    """A column for each batch: how many vertices stand on each level after it. Level 0 is left out."""
    if not text.changes:
        raise Unusable("no batch, so there is nothing to draw")
    levels, most = np.zeros(len(text.columns["level"]), dtype=int), 1
    for changes in text.changes:
        most = max([most, *(level for _, level in changes)])
    counts = np.zeros((most + 1, len(text.changes)))
    for batch, changes in enumerate(text.changes):
        for vertex, level in changes:
            levels[vertex] = level
        counts[:, batch] = np.bincount(levels, minlength=most + 1)
    shown = np.ma.masked_equal(counts[1:], 0)
    figure, axes = plt.subplots(figsize=(9, 4.8))
    mesh = axes.pcolormesh(np.arange(len(text.changes) + 1) + 0.5, np.arange(1, most + 2) - 0.5, shown, cmap="viridis", rasterized=True,
                           norm=matplotlib.colors.LogNorm(1, max(shown.max() or 1, 2)) if shown.count() else None)
    axes.set(xlabel="batch", ylabel="level")
    axes.xaxis.get_major_locator().set_params(integer=True, min_n_ticks=1)
    axes.yaxis.get_major_locator().set_params(integer=True)
    figure.colorbar(mesh, ax=axes, label="vertices on this level after the batch")
    save(figure, picture)


def batches_of(history, replies):
    """The batch of the earliest point that explains each reply, 0 at the start."""
    levels, at, batch = {}, 0, 0
    for vertex, level in replies:
        while levels.get(vertex, 0) != level:
            if at == len(history):
                raise Unusable(f"no point of the history explains {vertex}={level}; ask `kcore audit`")
            batch, moved = history[at]
            levels.update(moved)
            at += 1
        yield batch


def draw_levels(axes, text, replies, batches):
    """The levels of the vertices that a reader asks for, by batch, and its replies."""
    asked = list(dict.fromkeys(vertex for vertex, _ in replies))
    # (those that change most show most)
    changes = collections.Counter(vertex for change in text.changes for vertex, _ in change)
    shown = sorted(asked, key=lambda vertex: -changes[vertex])[:MOST_ASKED]
    for vertex, colour in zip(shown, matplotlib.colormaps["tab10"].colors):
        at, levels = [0], [0]
        for batch, change in enumerate(text.changes, 1):
            for level in (level for moved, level in change if moved == vertex):
                at.append(batch)
                levels.append(level)
        axes.step([*at, len(text.changes)], [*levels, levels[-1]], where="post", color=colour, linewidth=1, alpha=0.6)
        dots = [(batch, level) for batch, (v, level) in zip(batches, replies) if v == vertex]
        axes.plot(*np.array(dots).T, ".", color=colour, markersize=4, rasterized=len(dots) > 500, label=f"vertex {vertex}")
    title = None if len(shown) == len(asked) else f"{len(shown)} of {len(asked)} vertices, those that move most"
    axes.set(xlabel="batch", ylabel="level", ylim=(-0.3, None))
    axes.legend(frameon=False, loc="lower center", bbox_to_anchor=(0.5, 1), ncol=3, fontsize="small", title=title, title_fontsize="small")


def draw_readers(text, reader, picture):
    if reader not in range(len(text.replies)):
        raise Unusable(f"{len(text.replies)} readers, counted from 0, and {reader} isn't one of them")
    batches = [list(batches_of(text.history, replies)) for replies in text.replies]
    figure, (left, right) = plt.subplots(1, 2, figsize=(11, 4.2), gridspec_kw={"width_ratios": (2, 1)})
    draw_levels(left, text, text.replies[reader], batches[reader])
    for number, at in enumerate(batches):
        colour = BLUE if number == reader else GREY
        right.step(at, 100 * np.arange(1, len(at) + 1) / len(at), where="post", color=colour, linewidth=1, zorder=2 + (number == reader))
    right.set(xlabel="batch", ylabel="replies so far, per cent", xlim=left.get_xlim(), ylim=(0, 102))
    for axes in left, right:
        axes.xaxis.get_major_locator().set_params(integer=True, min_n_ticks=1)
        axes.spines[["top", "right"]].set_visible(False)
    left.yaxis.get_major_locator().set_params(integer=True)
    save(figure, picture)


def first_places(count, ends):
    """Places from which springs soon rest: two slow waves over the graph, found by averaging over neighbours."""
    places = np.random.default_rng(4).normal(size=(count, 2))
    degrees = np.maximum(np.bincount(ends.ravel(), minlength=count), 1)[:, None]
    for _ in range(60):
        near = np.zeros_like(places)
        np.add.at(near, ends[:, 0], places[ends[:, 1]])
        np.add.at(near, ends[:, 1], places[ends[:, 0]])
        places = (places + near / degrees) / 2
        places, _ = np.linalg.qr(places - places.mean(axis=0))
    return places * np.sqrt(count) + np.random.default_rng(5).normal(scale=0.05, size=(count, 2))


def places_of(count, ends):
    """A place for each vertex, so that neighbours are near and others apart (springs, from a fixed start)."""
    places, length = first_places(count, ends).astype(np.float32), np.float32(1 / np.sqrt(count))
    places *= np.float32(0.5) / max(np.abs(places).max(), 1e-6)
    for step in np.linspace(0.1, 0.002, 300 if count <= MOST_NUMBERS else 70, dtype=np.float32):
        shift, norms = -places * length, (places * places).sum(axis=1)
        for begin in range(0, count, 256):
            here = slice(begin, min(begin + 256, count))
            # (the square of the distance, by products; a vertex doesn't push itself)
            square = norms[here, None] + norms[None, :] - 2 * places[here] @ places.T
            push = length ** 2 / np.maximum(square, np.float32(1e-8))
            push[np.arange(here.stop - begin), np.arange(begin, here.stop)] = 0
            shift[here] += push.sum(axis=1, keepdims=True) * places[here] - push @ places
        pull = places[ends[:, 0]] - places[ends[:, 1]]
        pull *= np.sqrt((pull * pull).sum(axis=1, keepdims=True)) / length
        np.add.at(shift, ends[:, 0], -pull)
        np.add.at(shift, ends[:, 1], pull)
        places += shift / np.maximum(np.sqrt((shift * shift).sum(axis=1, keepdims=True)), 1e-6) * step
    return places


def spread(places):
    """The places in a disc of even density: each keeps its direction from the middle, and the order of distances stays."""
    apart = places - np.median(places, axis=0)
    distance = np.maximum(np.sqrt((apart * apart).sum(axis=1)), 1e-6)
    rank = np.empty(len(places))
    rank[np.argsort(distance, kind="stable")] = np.arange(len(places)) + 0.5
    return apart / distance[:, None] * np.sqrt(rank / len(places))[:, None]


def draw_graph(edges, colours, label, picture):
    ends, shown = np.array(sorted(edges), dtype=int).reshape(-1, 2), np.arange(len(colours))
    if len(colours) > MOST_NUMBERS:
        shown = np.unique(ends)
    if len(shown) > MOST_VERTICES:
        raise Unusable(f"{len(shown)} vertices with edges; a drawing shows at most {MOST_VERTICES}: draw a core of them"
                       " (docs/GUIDE.md, \"The subgraph of a core\"), or use `draw.py run` or `draw.py heat`")
    if not len(shown):
        raise Unusable("no vertex has an edge, so there is nothing to draw")
    ends, colours = np.searchsorted(shown, ends), colours[shown]
    places, has_numbers = places_of(len(shown), ends), len(shown) <= MOST_NUMBERS
    if not has_numbers:
        places = spread(places)
    figure, axes = plt.subplots(figsize=(7, 5.5))
    lines = matplotlib.collections.LineCollection(places[ends], colors=GREY, linewidths=0.8 if has_numbers else 0.25, alpha=1 if has_numbers else 0.5,
                                                  zorder=1, rasterized=not has_numbers)
    axes.add_collection(lines)
    degrees = np.bincount(ends.ravel(), minlength=len(shown))
    # (the densest are drawn last, so that they lie on top)
    order = np.argsort(colours, kind="stable")
    dots = axes.scatter(*places[order].T, c=colours[order], s=230 if has_numbers else 3 + 4 * np.sqrt(degrees[order]), cmap="viridis",
                        edgecolors="white" if has_numbers else "none", zorder=2, rasterized=not has_numbers)
    middle = (colours.min() + colours.max()) / 2
    for at, place in enumerate(places if has_numbers else ()):
        axes.annotate(str(shown[at]), place, ha="center", va="center", fontsize=7, zorder=3,
                      color="white" if colours[at] <= middle else "black")
    figure.colorbar(dots, ax=axes, label=label, shrink=0.7).locator = matplotlib.ticker.MaxNLocator(integer=True)
    axes.set_axis_off()
    save(figure, picture)


def colours_of(path, source, count, edges):
    """A number for each vertex and what it is: its coreness in a text of `exact`, `high` in one of `run`.

    The text has to be of the graph of the input `source`, which has this many vertices and these edges.
    """
    with open(path, encoding="utf-8", errors="replace") as file:
        is_exact = any(line.startswith("kcore-exact ") for line in file)
    columns = columns_of(words_of(path, "exact" if is_exact else "run"))
    check_count(source, count, path, len(columns["low"]))
    degrees = np.bincount(np.array(list(edges), dtype=int).ravel(), minlength=count)
    # (a text has a coreness, or a number of neighbours from a level on: neither is above the degree, and both are 0 only without edges)
    numbers = columns["coreness" if is_exact else "down"]
    differ = np.flatnonzero((numbers > degrees) | ((numbers == 0) != (degrees == 0)))
    if len(differ):
        raise Unusable(f"{source} and {path} are of two different graphs: vertex {differ[0]} has {degrees[differ[0]]} neighbours in the first, and"
                       f" {'coreness' if is_exact else 'down'} {numbers[differ[0]]} in the second")
    return (columns["coreness"], "coreness") if is_exact else (columns["high"], "high: the coreness is at most this")


def save(figure, picture):
    figure.tight_layout()
    # Without a date and with fixed names, so that the same input makes the same file.
    plt.rcParams["svg.hashsalt"] = "kcore"
    metadata = {"Date": None} if picture.endswith(".svg") else None
    figure.savefig(picture, metadata=metadata, dpi=120)


def main():
    parser = argparse.ArgumentParser(usage="draw.py run [--exact EXACT] TEXT PICTURE | draw.py heat TEXT PICTURE | draw.py readers [--reader R] TEXT PICTURE"
                                           " | draw.py graph INPUT TEXT PICTURE",
                                     description=__doc__, formatter_class=argparse.RawDescriptionHelpFormatter)
    kinds = parser.add_subparsers(dest="kind", required=True)
    both = ("text", "picture")
    for kind, names in ("run", both), ("heat", both), ("readers", both), ("graph", ("input", *both)):
        words = kinds.add_parser(kind)
        for name in names:
            words.add_argument(name)
        if kind == "run":
            words.add_argument("--exact")
        if kind == "readers":
            words.add_argument("--reader", type=int, default=0)
    chosen = parser.parse_args()
    if not chosen.picture.lower().endswith(ENDINGS):
        parser.error(f"{chosen.picture}: a picture ends with {', '.join(ENDINGS[:-1])} or {ENDINGS[-1]}")
    try:
        if chosen.kind == "run":
            text = RunText(chosen.text)
            draw_run(text, corenesses_beside(chosen.exact, chosen.text, text.columns) if chosen.exact else None, chosen.picture)
        elif chosen.kind == "heat":
            draw_heat(RunText(chosen.text), chosen.picture)
        elif chosen.kind == "readers":
            draw_readers(RunText(chosen.text), chosen.reader, chosen.picture)
        else:
            count, edges = edges_of(chosen.input, refused_batches(chosen.text))
            draw_graph(edges, *colours_of(chosen.text, chosen.input, count, edges), chosen.picture)
    except (Unusable, OSError, ValueError) as fault:
        sys.exit(f"draw.py: {fault}")


if __name__ == "__main__":
    main()
