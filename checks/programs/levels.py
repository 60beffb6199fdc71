#!/usr/bin/env python3
"""Compares texts of `kcore run` for loads with the levels that a plain program finds.

    checks/programs/levels.py KCORE

Each load has insertions and deletions, in each of the two profiles. The plain program counts all neighbours anew at
each look. Its levels after each phase are compared with those that follow from the lines `group`. Its levels after the
last batch, with their bounds and estimates, are compared with the lines `vertex`. Says which load differs first; the
exit number is 1 then.
"""
import itertools
import subprocess
import sys

from generated import load

# Seed, number of vertices, of batches and of the items of each.
LOADS = [*((seed, 14, 4, 12) for seed in range(20)), (77, 60, 6, 400), (5, 200, 3, 3000)]


class Thresholds:
    """The thresholds of a profile for n vertices."""

    def __init__(self, profile, n):
        part = 4 if profile == 1 else 8
        least, grow, height = [1, 1], 1, 0
        while grow <= n:
            grow, height = ((5 * grow + 3) // 4 if profile == 1 else (9 * grow + 7) // 8), height + 1
        self.height = height
        self.low = least
        self.high = [0]
        while len(self.high) < 2 or self.high[-1] < n - 1:
            last = least[len(self.high)]
            self.high.append(2 * last if profile == 1 else last + last // 2)
            least.append(last + max(1, last // part))
        self.bound = [0, 1] + [(4 * low // 9 if profile == 1 else 8 * low // 17) + 1 for low in least[1:]]

    def group(self, level):
        return 0 if level == 0 else 1 + (level - 1) // self.height


def count(rows, levels, v, level):
    return sum(levels[u] >= level for u in rows[v])


def moved(rows, levels, breaks, step):
    """The levels where each vertex that breaks its invariant goes on by a step, over and over."""
    levels = list(levels)
    while broken := [v for v in range(len(levels)) if breaks(rows, levels, v)]:
        for v in broken:
            levels[v] += step
    return levels


def phases_of(lines):
    """The levels after each phase of an input, and what is written of each vertex in the end."""
    profile, n = int(lines[0].split()[1]), int(lines[1].split()[1])
    marks = Thresholds(profile, n)
    rows, levels, found = {v: set() for v in range(n)}, [0] * n, []

    def stands_too_low(rows, levels, v):
        return count(rows, levels, v, levels[v]) > marks.high[marks.group(levels[v])]

    def stands_too_high(rows, levels, v):
        return levels[v] > 0 and count(rows, levels, v, levels[v] - 1) < marks.low[marks.group(levels[v] - 1)]

    batches = [list(items) for is_item, items in itertools.groupby(lines[2:], lambda line: line[0] in "+-") if is_item]
    for items in batches:
        wanted = {}
        for sign, u, v in map(str.split, items):
            if u != v:
                wanted[frozenset((int(u), int(v)))] = sign == "+"
        for is_added in False, True:
            pairs = [pair for pair, adds in wanted.items() if adds == is_added]
            pairs = [(u, v) for u, v in map(tuple, pairs) if (v in rows[u]) != is_added]
            for u, v in pairs:
                change = set.add if is_added else set.discard
                change(rows[u], v)
                change(rows[v], u)
            if pairs:
                levels = moved(rows, levels, *((stands_too_low, 1) if is_added else (stands_too_high, -1)))
                found.append(levels)
    told = []
    for v, level in enumerate(levels):
        group = marks.group(level)
        low, high = marks.bound[group], marks.high[group]
        up, down = count(rows, levels, v, level), count(rows, levels, v, level - 1)
        told.append(f"vertex {v} level {level} est {2 * low} low {low} high {high} up {up} down {down}")
    return found, told


def phases_in(text, n):
    """The same, as a text of `run` says it."""
    levels, found, told = [0] * n, [], []
    for line in text.splitlines():
        if line.startswith("phase"):
            found.append(levels)
        if line.startswith("group"):
            levels = list(levels)
            for v, level in (word.split(":") for word in line.split()[3:]):
                levels[int(v)] = int(level)
            found[-1] = levels
        if line.startswith("vertex "):
            told.append(line)
    return found, told


def main():
    if len(sys.argv) != 2:
        sys.exit(__doc__)
    for numbers, profile in itertools.product(LOADS, (1, 2)):
        lines = [f"kcore {profile}", *list(load(*numbers))[1:]]
        text = subprocess.run([sys.argv[1], "run", "2"], input="\n".join(lines) + "\n", capture_output=True, text=True, check=False).stdout
        if phases_in(text, numbers[1]) != phases_of(lines):
            sys.exit(f"load {numbers} in profile {profile}: other levels")


if __name__ == "__main__":
    main()
