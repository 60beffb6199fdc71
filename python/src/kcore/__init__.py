"""Calls the proved program `kcore` from Python.

`core_number`, `k_core`, `core_bounds`, `degeneracy`, `orientation`, `coloring`, `densest` and `certificate` take a
graph that stands still. `Stream` is a running program that takes batches of insertions and deletions, and has bounds
of the coreness of every node at any moment.

The program is proved: what it prints is right for every input. This module isn't: it numbers the nodes, writes what the
program reads, and reads what it prints. ``docs/PYTHON.md`` says what it checks.

Examples
--------
>>> import kcore
>>> kcore.core_number([(0, 1), (1, 2), (2, 0), (2, 3)])
{0: 2, 1: 2, 2: 2, 3: 1}
>>> with kcore.Stream(nodes=10) as stream:
...     batch = stream.apply(add=[("a", "b"), ("b", "c"), ("c", "a")])
...     stream.bounds("a")
Bounds(low=1, est=2, high=3, level=10)
>>> stream.result["a"].level
10
"""
from ._bounds import Bounds, Thresholds
from ._commands import (Certificate, Densest, Subgraph, Verdict, certificate, check, coloring, core_bounds, core_number,
                        degeneracy, densest, k_core, orientation)
from ._errors import BatchRefused, KcoreError, Mismatch, ProgramEnded, ProgramNotFound, StreamClosed, TooManyNodes
from ._program import Program, command
from ._program import find as program
from ._stream import Batch, Group, Phase, Stream, Vertex

__version__ = "1.0.0"

__all__ = [
    "Batch", "BatchRefused", "Bounds", "Certificate", "Densest", "Group", "KcoreError", "Mismatch", "Phase",
    "Program", "ProgramEnded", "ProgramNotFound", "Stream", "StreamClosed", "Subgraph", "Thresholds",
    "TooManyNodes", "Verdict", "Vertex", "certificate", "check", "coloring", "command", "core_bounds",
    "core_number", "degeneracy", "densest", "k_core", "orientation", "program",
]

# Errors and types say the name by which they are called, and not the file in which they stand.
for _name in __all__:
    globals()[_name].__module__ = __name__
del _name
