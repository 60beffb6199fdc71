"""Finds the program, runs it over pipes, and says how it ended."""
from __future__ import annotations

import contextlib
import os
import select
import selectors
import shlex
import shutil
import subprocess
import sys
from typing import List, NamedTuple, Optional, Union

from ._errors import ProgramEnded, ProgramNotFound, ending_in_words

__all__ = ["Program", "find", "command"]

#: What names a file or a program.
PathLike = Union[str, "os.PathLike[str]"]

#: Bytes of one read. A pipe is asked to hold as many.
BLOCK = 1 << 18

# The numbers of the calls of Linux; `fcntl` has names for them from Python 3.10 on.
F_SETPIPE_SZ = 1031


class Program(NamedTuple):
    """Is a program that was found: its path, and where it was found.

    It is a path for `open` and `subprocess` too.
    """

    path: str
    found: str

    def __str__(self) -> str:
        return f"{self.path} (from {self.found})"

    def __fspath__(self) -> str:
        return self.path


def _can_run(path):
    return os.path.isfile(path) and os.access(path, os.X_OK)


def find(path: Optional[PathLike] = None) -> Program:
    """Finds the program `kcore`, and says where.

    It takes the first that there is of: `path`; the file that the variable ``KCORE`` names; the copy that was
    installed with this package; ``dist/kcore`` of the repository, if the package runs from a checkout; `kcore` on the
    path. A path or a ``KCORE`` that names no program is an error, and nothing else is taken in its place.

    Parameters
    ----------
    path : str or path-like or Program, optional
        The program to take.

    Returns
    -------
    Program
        The path, and where it was found, in words.

    Raises
    ------
    ProgramNotFound
        If there is none.

    Examples
    --------
    >>> program = kcore.program()
    >>> print(program.found)                            # doctest: +SKIP
    the variable KCORE
    """
    if isinstance(path, Program):
        return path
    if path is not None:
        return _named(os.fspath(path), "the argument")
    if os.environ.get("KCORE"):
        return _named(os.environ["KCORE"], "the variable KCORE")
    for copy, found in _of_package(os.path.dirname(os.path.abspath(__file__))):
        if _can_run(copy):
            return Program(copy, found)
    on_path = shutil.which("kcore")
    if on_path:
        return Program(on_path, "PATH")
    raise ProgramNotFound("there is no program `kcore`: name one by the argument `program` or the variable KCORE, or "
                          "put it on PATH")


def _named(path, found):
    if not _can_run(path):
        lacks = "isn't there" if not os.path.exists(path) else "can't be run: it is no file, or not executable"
        raise ProgramNotFound(f"{path}, which {found} names, {lacks}")
    return Program(os.path.abspath(path), found)


def _of_package(here):
    """Returns the copies that there may be beside the package in a folder, and where each is found."""
    copies = [(os.path.join(here, "bin", "kcore"), "the copy in this package")]
    python, source = os.path.split(os.path.dirname(here))
    top, name = os.path.split(python)
    if (source, name) == ("src", "python"):
        copies.append((os.path.join(top, "dist", "kcore"), "the repository's dist/kcore"))
    return copies


def _note_file():
    """Returns a file without a name for what a program writes to its standard error."""
    try:
        return os.fdopen(os.memfd_create("kcore-errors"), "w+b")
    except (AttributeError, OSError):
        import tempfile
        return tempfile.TemporaryFile()


class Process:
    """Is a running program, with pipes that can't block one another.

    While bytes are written, what the program prints is taken too. So a program that waits for its output to be read
    never waits for this process, which waits for it to read.
    """

    def __init__(self, found, words, stdin=None, stdout=None, apart=False):
        self.words = " ".join(["kcore", *map(shlex.quote, map(str, words))])
        self.errors = _note_file()
        try:
            self.popen = subprocess.Popen(
                [found.path, *map(str, words)], bufsize=0, stderr=self.errors, start_new_session=apart,
                stdin=subprocess.PIPE if stdin is None else stdin, stdout=subprocess.PIPE if stdout is None else stdout)
        except OSError as fault:
            self.errors.close()
            raise ProgramNotFound(f"{found} can't be run: {fault.strerror or fault}") from None
        self.source = self.popen.stdin.fileno() if self.popen.stdin else None
        self.sink = self.popen.stdout.fileno() if self.popen.stdout else None
        self.both = None
        if self.source is not None:
            os.set_blocking(self.source, False)
        for pipe in (self.source, self.sink):
            _widen(pipe)

    def write(self, data, take):
        """Writes all of the bytes. Calls `take` with the bytes that the program prints meanwhile.

        Raises BrokenPipeError if the program no longer reads.
        """
        rest = memoryview(data)
        while rest:
            try:
                rest = rest[os.write(self.source, rest):]
            except BlockingIOError:
                self._wait(take)

    def _wait(self, take):
        """Waits until the program reads or prints. Takes what it prints."""
        if self.both is None:
            self.both = selectors.DefaultSelector()
            self.both.register(self.source, selectors.EVENT_WRITE)
            if self.sink is not None:
                self.both.register(self.sink, selectors.EVENT_READ)
        for key, _ in self.both.select():
            if key.fd == self.sink:
                data = os.read(self.sink, BLOCK)
                if not data:
                    # The program closed its output: it ends, and reads no more.
                    raise BrokenPipeError
                take(data)

    def read(self, seconds=None):
        """Returns the next bytes that the program prints, or none at the end. Waits for them, for some seconds at
        most."""
        if seconds is not None and not self._answers_within(seconds):
            self.kill()
            raise ProgramEnded(f"`{self.words}` didn't answer within {seconds} seconds, and was ended: is it a version "
                               "that answers only at its end?")
        return os.read(self.sink, BLOCK)

    def _answers_within(self, seconds):
        poll = select.poll()
        poll.register(self.sink, select.POLLIN)
        return poll.poll(1000 * seconds)

    def close_source(self):
        """Ends the program's input."""
        if self.both is not None:
            self.both.close()
            self.both = None
        if self.popen.stdin and not self.popen.stdin.closed:
            self.popen.stdin.close()

    def wait(self):
        """Waits for the end of the program, and returns how it ended."""
        return self.popen.wait()

    def kill(self):
        """Ends the program, whatever it does, and lets go of the pipes."""
        if self.popen.poll() is None:
            self.popen.kill()
        self.popen.wait()
        self.close()

    def close(self):
        """Lets go of the pipes."""
        self.close_source()
        if self.popen.stdout and not self.popen.stdout.closed:
            self.popen.stdout.close()
        self.errors.close()

    def ending(self, before=""):
        """Waits for the end of the program, lets go of it, and returns the exception that says how it ended."""
        self.close_source()
        if self.popen.stdout:
            self.popen.stdout.close()
        try:
            status = self.popen.wait(10)
        except subprocess.TimeoutExpired:
            self.kill()
            return ProgramEnded(f"`{self.words}` closed its output and didn't end{before}")
        said = ""
        if not self.errors.closed:
            self.errors.seek(0)
            said = self.errors.read(1000).decode("utf-8", "replace").strip()
            self.errors.close()
        ending, mark, hint = ending_in_words(status).partition("; ")
        return ProgramEnded(f"`{self.words}` {ending}{before}{mark}{hint}{': ' + said if said else ''}", status)


def _widen(pipe):
    """Asks that a pipe hold a whole block, so that fewer calls pass more bytes. Any other pipe does too."""
    if pipe is not None and sys.platform == "linux":
        import fcntl
        try:
            fcntl.fcntl(pipe, F_SETPIPE_SZ, BLOCK)
        except OSError:
            pass


def converse(found, words, pieces, take, right=(0,), source=None, sink=None):
    """Runs a program, passes it the pieces of its input, and passes what it prints to `take`, block by block.

    With a file as `source` the program reads that in place of the pieces, and with one as `sink` it writes there.
    Returns the exit number, which is one of `right`. Raises ProgramEnded if it is another.
    """
    process = Process(found, words, source, sink)
    try:
        try:
            for piece in pieces:
                process.write(piece, take)
        except BrokenPipeError:
            pass
        process.close_source()
        if sink is None:
            for data in iter(process.read, b""):
                take(data)
        if process.wait() not in right:
            raise process.ending()
        return process.popen.returncode
    finally:
        process.kill()


def command(*words: Union[str, int], input: Union[bytes, PathLike] = b"", output: Optional[PathLike] = None,
            program: Optional[PathLike] = None) -> bytes:
    """Runs one command of the program, and returns what it prints.

    Parameters
    ----------
    *words : str or int
        The words of the command line, as ``"exact"`` or ``"run", 4``.
    input : bytes or path, optional
        What the program reads, or the file that it reads.
    output : path, optional
        The file that it writes in place of the text that is returned.
    program : path, optional
        The program; see `kcore.program`.

    Returns
    -------
    bytes
        The text, whole. A text that refuses something or says no is returned like any other.

    Raises
    ------
    ProgramEnded
        If it ended with another number than 0 or 1. The exception has the number, and says what it means.

    Examples
    --------
    >>> print(kcore.command("exact", input=b"kcore 1\\nvertices 2\\nbatch\\n0 1\\nend\\n").decode(), end="")
    kcore-exact 1
    vertices 2
    vertex 0 coreness 1 low 1 est 2 high 2
    vertex 1 coreness 1 low 1 est 2 high 2
    end
    >>> kcore.command("exakt")
    Traceback (most recent call last):
    ...
    kcore.ProgramEnded: `kcore exakt` ended with 2: the words of its command line name no command
    """
    pieces: List[bytes] = []
    with contextlib.ExitStack() as files:
        is_data = isinstance(input, (bytes, bytearray, memoryview))
        source = None if is_data else files.enter_context(open(input, "rb"))
        sink = None if output is None else files.enter_context(open(output, "wb"))
        converse(find(program), words, [input] if is_data else [], pieces.append, (0, 1), source, sink)
    return b"".join(pieces)
