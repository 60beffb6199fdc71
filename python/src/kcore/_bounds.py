"""The bounds of the coreness for which a level stands, by the thresholds of the program."""
from __future__ import annotations

from functools import lru_cache
from typing import NamedTuple

__all__ = ["Bounds", "Thresholds", "MOST_NODES", "MOST_EDGES", "MOST_ITEMS", "MOST_BYTES"]

#: The limits of the program.
MOST_NODES = 16_777_216
MOST_EDGES = 16_777_216
MOST_ITEMS = 1_048_576
MOST_BYTES = 1_073_741_824


class Bounds(NamedTuple):
    """Is what a level says of the coreness of a node.

    Attributes
    ----------
    low, high : int
        The coreness is at least `low` and at most `high`.
    est : int
        The estimate: at most twice the coreness. The coreness is at most twice the estimate in profile 2, and at most
        three times in profile 1.
    level : int
        The level that says so.
    """

    low: int
    est: int
    high: int
    level: int


class Thresholds:
    """Has the bounds for which each level stands, for a number of nodes and a profile.

    They are computed by the definitions that the program is proved against (``docs/DEFINITIONS.md``, "Thresholds").
    This computation isn't proved; each end of a `Stream` compares it with what the program prints.

    Parameters
    ----------
    nodes : int
        The number of vertices of the run, 1 to 16,777,216.
    profile : int
        1 or 2.

    Attributes
    ----------
    height : int
        The number of levels of a band.
    top : int
        The greatest level.

    Examples
    --------
    >>> thresholds = kcore.Thresholds(8, profile=1)
    >>> thresholds.height, thresholds.top
    (6, 19)
    >>> thresholds.bounds(13)
    Bounds(low=1, est=2, high=6, level=13)
    """

    def __init__(self, nodes: int, profile: int = 2) -> None:
        check_profile(profile)
        check_nodes(nodes)
        step, times, over = (4, 4, 9) if profile == 1 else (8, 8, 17)
        self.nodes, self.profile = nodes, profile
        self.height, grow = 0, 1
        while grow <= nodes:
            self.height += 1
            grow = ((step + 1) * grow + step - 1) // step
        low, lo, high = [1, 1], [0, 1], [0, 2 if profile == 1 else 1]
        while high[-1] < nodes - 1:
            following = low[-1] + max(1, low[-1] // step)
            lo.append(times * low[-1] // over + 1)
            low.append(following)
            high.append(2 * following if profile == 1 else following + following // 2)
        self.top = 1 + (len(high) - 2) * self.height
        self._bands = [(least, 2 * least, most) for least, most in zip(lo, high)]

    def band(self, level: int) -> int:
        """Returns the band of a level: consecutive levels that stand for the same bounds. Level 0 alone is band 0."""
        if not 0 <= level <= self.top:
            raise ValueError(f"there is no level {level}: levels are 0 to {self.top}")
        return 0 if level == 0 else 1 + (level - 1) // self.height

    def bounds(self, level: int) -> Bounds:
        """Returns the bounds for which a level stands."""
        return Bounds(*self._bands[self.band(level)], level)


@lru_cache(maxsize=16)
def thresholds_of(nodes, profile):
    return Thresholds(nodes, profile)


def check_profile(profile):
    if profile not in (1, 2):
        raise ValueError(f"profile is 1 or 2, and not {profile!r}")


def check_nodes(nodes):
    if not 1 <= nodes <= MOST_NODES:
        raise ValueError(f"{nodes} nodes; the program takes 1 to {MOST_NODES:,}")


def check_workers(workers):
    if not isinstance(workers, int) or not 1 <= workers <= 64:
        raise ValueError(f"workers is a number from 1 to 64, and not {workers!r}")
