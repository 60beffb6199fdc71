"""The exceptions of the package, and the words for the ways in which a program ends."""
from __future__ import annotations

import signal
from typing import Any, Optional

__all__ = ["KcoreError", "ProgramNotFound", "ProgramEnded", "BatchRefused", "Mismatch", "StreamClosed", "TooManyNodes",
           "REASONS", "ending_in_words", "unlike"]

#: What each exit number of the program says.
STATUSES = {
    0: "all is done, and nothing was refused",
    1: "something in its input was refused",
    2: "the words of its command line name no command",
    3: "a read failed",
    4: "a write failed: the device is full, or nothing reads what it writes",
    5: "there was not enough memory",
    126: "the file can't be run",
    127: "the file, or the loader that it names, isn't there",
}

#: What each reason of a refused batch says.
REASONS = {
    "bad-line": "the line is neither an item nor `end`",
    "bad-vertex": "the item names a vertex that isn't there",
    "line-long": "the line has more than 65,536 bytes",
    "too-many": "the batch has more than 1,048,576 items",
    "truncated": "the input ends before the `end` of the batch",
    "input-limit": "the input has more than 1,073,741,824 bytes",
    "edge-limit": "the graph would have more than 16,777,216 edges",
    "phase-limit": "there would be more than 16,777,215 phases",
}

#: What helps against some of them.
REMEDIES = {
    "too-many": "; `cut=True` cuts it into several",
    "input-limit": "; close the stream, and put its edges into a new one",
    "phase-limit": "; close the stream, and put its edges into a new one",
}


def ending_in_words(status: int) -> str:
    """Says how a program ended.

    Parameters
    ----------
    status : int
        Its exit number, or less than 0: the signal that ended it, as `subprocess` has it.

    Returns
    -------
    str

    Examples
    --------
    >>> ending_in_words(5)
    'ended with 5: there was not enough memory'
    >>> ending_in_words(-9)
    'was ended by the signal SIGKILL (9); the system may have run out of memory'
    """
    if status < 0:
        try:
            name = signal.Signals(-status).name
        except ValueError:
            name = "of number"
        hint = "; the system may have run out of memory" if status == -9 else ""
        return f"was ended by the signal {name} ({-status}){hint}"
    return f"ended with {status}: {STATUSES.get(status, 'a number that the program itself never gives')}"


class KcoreError(Exception):
    """Is the base of all exceptions of this package."""


class ProgramNotFound(KcoreError):
    """Says that there is no program where it was looked for."""


class ProgramEnded(KcoreError):
    """Says that the program ended before its work was done.

    Attributes
    ----------
    status : int or None
        The exit number; less than 0 is the signal that ended it. None where it doesn't end.
    """

    def __init__(self, message: str, status: Optional[int] = None) -> None:
        super().__init__(message)
        self.status = status


class BatchRefused(KcoreError):
    """Says that a batch was refused. It changed nothing, and the stream goes on.

    Attributes
    ----------
    reason : str
        One of the reasons of ``docs/FORMATS.md``: ``too-many``, ``edge-limit``, ``phase-limit``, ``input-limit``, and
        for `Stream.apply_lines` also ``bad-line``, ``bad-vertex`` and ``line-long``.
    number : int
        The number of the batch, as `Batch.number` counts them.
    line : int or None
        The line of the batch at which it is refused, counted from 1: of the lines that `Stream.apply_lines` was given,
        or, as `Stream.apply` writes a line for each item, of its items: first those of `isolate`, then of `remove`,
        then of `add`. None where the batch is refused as a whole.
    item : int or None
        The item of the batch at which it is refused, counted from 0. Comments and empty lines are no items.
    sent : bool
        Whether the program refused it. If not, the module did and sent nothing.
    applied : Batch or None
        What took effect of a batch that was cut (``cut=True``) before the refused piece.
    """

    def __init__(self, reason: str, number: int, line: Optional[int] = None, item: Optional[int] = None,
                 sent: bool = True, applied: Any = None) -> None:
        meaning = REASONS.get(reason, "for a reason that this package doesn't know")
        at = "as a whole" if line is None else f"at line {line} of its items"
        super().__init__(f"batch {number} is refused {at}: {reason}, {meaning}{REMEDIES.get(reason, '')}")
        self.reason, self.number, self.line = reason, number, line
        self.item, self.sent, self.applied = item, sent, applied


class Mismatch(KcoreError):
    """Says that a text differs from what it has to be, and that no value of it was returned.

    It is a text of the program, beside what this package kept or can read; or, for ``python -m kcore view``, a text
    that isn't that of the input.
    """


def unlike(what: str) -> Mismatch:
    """Returns the exception for a text of the program that this package can't read."""
    return Mismatch(f"the program prints what this package can't read: {what}. Is it of another version? "
                    "`python -m kcore program` says which program is taken, and `program=` or KCORE names another")


class StreamClosed(KcoreError):
    """Says that a call needs a stream that is open, or one that is closed."""


class TooManyNodes(KcoreError, ValueError):
    """Says that a batch names more nodes than the stream was opened for. Nothing was sent."""
