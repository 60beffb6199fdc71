"""Runs the program over files, from a terminal: ``python -m kcore --help``."""
from __future__ import annotations

import argparse
import contextlib
import os
import sys
import tempfile
from typing import Any, Iterator, List, Optional, Sequence, Tuple

from . import __version__
from ._bounds import MOST_ITEMS
from ._commands import core_bounds, core_number
from ._edges import read_edges
from ._errors import KcoreError
from ._inputs import Input, names_of
from ._program import command, find
from ._view import batches_of_edges, page
from ._watch import watch


def main(words: Optional[List[str]] = None) -> int:
    """Runs a command line, and returns the exit number: 0, or 1 with a line on the standard error that says why."""
    chosen = _parser().parse_args(words)
    try:
        chosen.act(chosen)
        sys.stdout.flush()
        return 0
    except BrokenPipeError:
        # Nobody reads on, as after `| head`. The rest goes nowhere, and nothing is said of it.
        os.dup2(os.open(os.devnull, os.O_WRONLY), sys.stdout.fileno())
        return 1
    except (KcoreError, OSError, ValueError) as fault:
        print(f"kcore: {fault}", file=sys.stderr)
        return 1
    except KeyboardInterrupt:
        print(file=sys.stderr)
        return 130


def _parser() -> argparse.ArgumentParser:
    parser = argparse.ArgumentParser(
        prog="python -m kcore", description="Runs the proved program `kcore` over files.",
        epilog="FILE is an input of the program (its first line is `kcore 1` or `kcore 2`), or has the two names of an "
               "edge on each line, as the files of SNAP; what gzip compressed is unpacked, and - is the standard input.")
    parser.add_argument("--version", action="version", version=f"kcore {__version__}")
    parser.add_argument("--program", help="the program; else as docs/PYTHON.md says")
    commands = parser.add_subparsers(dest="command", required=True, metavar="COMMAND")

    def add(name, act, text, file=True):
        words = commands.add_parser(name, help=text, description=text[0].upper() + text[1:] + ".")
        words.set_defaults(act=act)
        if file:
            words.add_argument("file", metavar="FILE")
        return words

    add("program", _program, "says which program is taken, and where it was found", file=False)
    for name, act, text in (("cores", _cores, "prints the coreness of each node"),
                            ("levels", _levels, "prints the level of each node, and the bounds for which it stands")):
        words = add(name, act, text)
        words.add_argument("--top", type=int, metavar="N", help="only the N greatest, greatest first")
        if name == "levels":
            words.add_argument("--profile", type=int, choices=(1, 2), default=2, help="for edges; 2 if not given")
            words.add_argument("--workers", type=int, default=1, help="1 to 64; 1 if not given")
    for name, act, text in (("watch", _watch, "shows batches as they are applied, edges a second, the largest groups"),
                            ("view", _view, "makes a page in which a reader steps through the run")):
        words = add(name, act, text)
        words.add_argument("--profile", type=int, choices=(1, 2), default=2, help="for edges; 2 if not given")
        words.add_argument("--workers", type=int, default=1 if name == "watch" else 2, help="1 to 64")
        words.add_argument("--batch", type=int, metavar="N", help="edges come in in batches of N")
        if name == "view":
            words.add_argument("-o", "--output", required=True, metavar="PAGE", help="the page, as run.html")
            words.add_argument("--title", help="the heading; the name of the file if not given")
            words.add_argument("--text", metavar="TEXT", help="what `kcore run` printed for it, to be shown as it is")
    return parser


def _program(chosen) -> None:
    print(find(chosen.program))


@contextlib.contextmanager
def _path(name: str) -> Iterator[str]:
    """Gives the path of a file, or of a copy of the standard input."""
    if name != "-":
        yield name
        return
    with tempfile.NamedTemporaryFile(prefix="kcore-") as copy:
        for block in iter(lambda: sys.stdin.buffer.read(1 << 20), b""):
            copy.write(block)
        copy.flush()
        yield copy.name


def is_input(path: str) -> bool:
    """Says whether a file is an input of the program: its first line that isn't skipped begins with `kcore`."""
    with open(path, "rb") as file:
        for line in file:
            words = line.split(None, 1)
            if words and not words[0].startswith(b"#"):
                return words[0] == b"kcore"
    return False


def _print(header: Tuple[str, ...], rows: Sequence[Tuple[Any, ...]], top: Optional[int]) -> None:
    """Prints a table, whole or only the rows with the greatest second column, with a tab between two columns."""
    if top is not None:
        rows = sorted(rows, key=lambda row: -row[1])[:max(0, top)]
    sys.stdout.write("\t".join(header) + "\n")
    for start in range(0, len(rows), 10_000):
        sys.stdout.write("".join("\t".join(map(str, row)) + "\n" for row in rows[start:start + 10_000]))


def _cores(chosen) -> None:
    with _path(chosen.file) as path:
        if is_input(path):
            text = command("exact", input=path, program=chosen.program)
            rows = [(line[1], int(line[3])) for line in _vertices(text, path)]
        else:
            rows = list(core_number(path, program=chosen.program).items())
    _print(("node", "coreness"), rows, chosen.top)


def _levels(chosen) -> None:
    with _path(chosen.file) as path:
        if is_input(path):
            text = command("run", chosen.workers, input=path, program=chosen.program)
            rows = [(line[1], int(line[3]), int(line[7]), int(line[5]), int(line[9])) for line in _vertices(text, path)]
        else:
            bounds = core_bounds(path, profile=chosen.profile, workers=chosen.workers, program=chosen.program)
            rows = [(node, level, low, est, high) for node, (low, est, high, level) in bounds.items()]
    _print(("node", "level", "low", "est", "high"), rows, chosen.top)


def _vertices(text: bytes, path: str) -> Iterator[List[str]]:
    """Yields the words of each vertex line, with the name in place of the number. Says on the standard error what is
    refused."""
    lines = text.decode("ascii").splitlines()
    if lines and lines[0].startswith("refused "):
        raise ValueError(f"{path} is {lines[0]}: its head isn't that of an input")
    for line in lines:
        if " refused line " in line[:80]:
            print(f"kcore: {line.lstrip('# ')}", file=sys.stderr)
    with open(path, "rb") as file:
        names = Input(file.read()).names
    for line in lines:
        if line.startswith("vertex "):
            words = line.split()
            words[1] = names.get(int(words[1]), words[1])
            yield words


def _as_input(path: str, chosen) -> bytes:
    """Returns the bytes of an input, or those of the input whose batches put in the edges of a file."""
    if is_input(path):
        with open(path, "rb") as file:
            return file.read()
    if chosen.batch is not None and not 1 <= chosen.batch <= MOST_ITEMS:
        raise ValueError(f"a batch has 1 to {MOST_ITEMS:,} edges, and not {chosen.batch}")
    return batches_of_edges(read_edges(path), chosen.batch, chosen.profile)


def _watch(chosen) -> None:
    found = find(chosen.program)
    if chosen.file == "-":
        watch(found, chosen.workers, sys.stdin.buffer, "the standard input", {})
        return
    if is_input(chosen.file):
        with open(chosen.file, "rb") as lines, open(chosen.file, "rb") as file:
            watch(found, chosen.workers, file, chosen.file, names_of(lines))
        return
    chosen.batch = chosen.batch or 10_000
    data = _as_input(chosen.file, chosen)
    with tempfile.TemporaryFile(prefix="kcore-") as file:
        file.write(data)
        file.seek(0)
        watch(found, chosen.workers, file, chosen.file, names_of(data.split(b"\n")))


def _view(chosen) -> None:
    with _path(chosen.file) as path:
        data = _as_input(path, chosen)
    if chosen.text:
        with open(chosen.text, "rb") as file:
            text = file.read()
    else:
        text = command("run", chosen.workers, input=data, program=chosen.program)
    title = chosen.title or ("a run" if chosen.file == "-" else os.path.basename(chosen.file))
    written = page(data, text, title)
    with open(chosen.output, "w", encoding="utf-8") as file:
        file.write(written)
    print(f"{chosen.output}: {len(written.encode('utf-8')):,} bytes; open it in any browser")


if __name__ == "__main__":
    sys.exit(main())
