"""Makes one page, without anything from outside, in which a reader steps through a run."""
from __future__ import annotations

import json
import os
from typing import Any, Dict, List, Optional

from ._bounds import thresholds_of
from ._errors import Mismatch
from ._inputs import Input, Run

#: Above this many vertices the page shows how many stand on each level, and no graph.
MOST_DRAWN = 2000

#: About how many replies of a reader are shown.
MOST_REPLIES = 2000

#: The most moves that a page can hold.
MOST_MOVES = 4_000_000


def page(data: bytes, text: bytes, title: str) -> str:
    """Returns the page of an input and of the text of its run.

    Parameters
    ----------
    data, text : bytes
        What the program read, and what it printed.
    title : str
        The heading.

    Raises
    ------
    Mismatch
        If the text isn't that of a run of this input, as far as the page shows it.
    ValueError
        If there are too many moves for a page.
    """
    given, run = Input(data), Run(text)
    if (run.vertices, len(run.batches)) != (given.vertices, sum(1 for _ in given.batches())):
        raise Mismatch(f"the input has {given.vertices:,} vertices, and the text {run.vertices:,}, or they have other numbers of batches: "
                       "is the text that of this input?")
    run.check_bounds(given.profile)
    drawn = run.vertices <= MOST_DRAWN
    if drawn:
        run.with_edges(given)
    moves = sum(len(group.moves) for batch in run.batches for phase in batch.phases for group in phase.groups)
    if moves > MOST_MOVES:
        raise ValueError(f"the run has {moves:,} moves, and a page holds at most {MOST_MOVES:,}")
    thresholds = thresholds_of(run.vertices, given.profile)
    content: Dict[str, Any] = {
        "title": title,
        "vertices": run.vertices,
        "profile": given.profile,
        "height": thresholds.height,
        "bounds": thresholds._bands[:1 + thresholds.band(_greatest(run))],
        "names": {str(vertex): name for vertex, name in given.names.items() if vertex < run.vertices},
        "drawn": drawn,
        "batches": [_batch(batch) for batch in run.batches],
        "readers": [{"replies": _flat(_thinned(run.explained(reader))), "asked": len(replies)}
                    for reader, replies in enumerate(run.replies)],
    }
    with open(os.path.join(os.path.dirname(__file__), "view.html"), encoding="utf-8") as file:
        template = file.read()
    # In a script `</` could end it.
    written = json.dumps(content, separators=(",", ":")).replace("</", "<\\/")
    return template.replace("__TITLE__", _escaped(title)).replace("__DATA__", written)


def _thinned(told):
    """Returns at most some of the replies of each point: each its place, and then its vertex, level and point."""
    points = {}
    for place, reply in enumerate(told):
        points.setdefault(reply[2], []).append((place, *reply))
    most = max(4, MOST_REPLIES // max(1, len(points)))
    kept = []
    for rows in points.values():
        # The first and the last stay, and others between them at equal distances.
        step = (len(rows) - 1) / (most - 1)
        kept += rows if len(rows) <= most else [rows[round(step * k)] for k in range(most)]
    return kept


def _greatest(run):
    return max((level for changes in run.changes.values() for _, level in changes), default=0)


def _batch(batch) -> Dict[str, Any]:
    if batch.counts is None:
        return {"refused": batch.refusal}
    return {"counts": batch.counts, "phases": [
        {"number": phase.number, "kind": phase.kind, "quiet": _flat(phase.quiet),
         "groups": [[_flat(group.moves), _flat(group.edges)] for group in phase.groups]} for phase in batch.phases]}


def _flat(rows) -> List[int]:
    return [number for row in rows for number in row]


def _escaped(text: str) -> str:
    return text.replace("&", "&amp;").replace("<", "&lt;").replace(">", "&gt;")


def batches_of_edges(ends: List[Any], items: Optional[int], profile: int) -> bytes:
    """Returns an input whose batches put in edges, given by their ends, with the names of the nodes in comments."""
    names = list(dict.fromkeys(ends))
    number = {name: place for place, name in enumerate(names)}
    if not names:
        raise ValueError("there are no edges")
    size = 2 * (items or max(1, -(-len(ends) // 24)))
    lines = [f"kcore {profile}\nvertices {len(names)}\n"]
    named = [(place, str(name)) for place, name in enumerate(names) if str(name) != str(place)]
    lines += [f"# node {place} {json.dumps(name)}\n" for place, name in named]
    for start in range(0, len(ends), size):
        pairs = zip(ends[start:start + size:2], ends[start + 1:start + size:2])
        lines.append("batch\n" + "".join(f"{number[a]} {number[b]}\n" for a, b in pairs) + "end\n")
    return "".join(lines).encode("utf-8")
