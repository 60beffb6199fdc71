#!/usr/bin/env python3
"""Says whether the replies to the readers of a run text are levels of its history.

    kcore run 4 < examples/readers.kc | python3 checks/programs/explained.py
    kcore run 4 < examples/readers.kc | python3 checks/programs/explained.py --points
    kcore run 4 < examples/readers.kc | python3 checks/programs/explained.py --changed kcore

Each reply `V=L` has to be the level of V at a point of the history: before the first line `group`, or after one of
them. The points of one reader never go back. Exits with 0 if that is so. Otherwise exits with 1 and says the first
reply for which there is no point.

With --points it also prints a line for each reader: how many different points its replies meet, of how many there are.
A reply may fit several points; the earliest one is taken that isn't before that of the reply before it.

With --changed the text is changed at one reply after another, to the next level up and down. `PROGRAM audit` has to
name the same reply of each changed text, or `explained`. Exits with 1 and says the first text for which it doesn't.
"""
import subprocess
import sys


def history_of(text):
    """Per group line, what it moves."""
    rows = (line.split() for line in text.splitlines())
    return [{int(v): int(l) for v, l in (word.split(":") for word in words[3:])} for words in rows if words[:1] == ["group"]]


def replies_of(text):
    """Per reader line, its number and the replies, as (vertex, level)."""
    for words in map(str.split, text.splitlines()):
        if words[:1] == ["reader"]:
            yield int(words[1]), [tuple(map(int, word.split("="))) for word in words[2:]]


def points_of(moves, replies):
    """The earliest point for each reply, which leaves most to the replies after it, up to the first without a point."""
    point, levels = 0, {}
    for vertex, level in replies:
        while levels.get(vertex, 0) != level:
            if point == len(moves):
                return
            levels.update(moves[point])
            point += 1
        yield point


def first_misfit(text):
    """The first reply without a point, as (reader, number of the question from 1), or None."""
    moves = history_of(text)
    for reader, replies in replies_of(text):
        explained = sum(1 for _ in points_of(moves, replies))
        if explained < len(replies):
            return reader, explained + 1
    return None


def points_met(text):
    """Per reader its number and how many different points its replies meet at least, and how many points there are."""
    moves = history_of(text)
    return [(reader, len(set(points_of(moves, replies)))) for reader, replies in replies_of(text)], len(moves) + 1


def changed(text):
    """The texts that differ in one reply by 1."""
    lines = text.splitlines(keepends=True)
    for i, line in enumerate(lines):
        words = line.split()
        for j, word in enumerate(words[2:], 2) if words[:1] == ["reader"] else []:
            vertex, level = map(int, word.split("="))
            for other in {level + 1, max(level - 1, 0)} - {level}:
                new = " ".join([*words[:j], f"{vertex}={other}", *words[j + 1 :]])
                yield "".join([*lines[:i], new + "\n", *lines[i + 1 :]])


def verdict(misfit):
    """What `audit` has to write of a text with this misfit."""
    return "unexplained reader %d ask %d\n" % misfit if misfit else "explained\n"


def first_other(program, text):
    """The first changed text of which the program doesn't write the verdict, or None."""
    for one in changed(text):
        if subprocess.run([program, "audit"], input=one, capture_output=True, text=True).stdout != verdict(first_misfit(one)):
            return one
    return None


if __name__ == "__main__":
    if sys.argv[1:2] == ["--changed"]:
        other = first_other(sys.argv[2], sys.stdin.read())
        if other:
            sys.exit("another verdict by audit of:\n" + other)
        sys.exit()
    text = sys.stdin.read()
    if sys.argv[1:2] == ["--points"]:
        met, points = points_met(text)
        for reader, count in met:
            print(f"reader {reader} meets {count} of {points} points")
    misfit = first_misfit(text)
    if misfit:
        print("reader %d, question %d: no point of the history fits" % misfit, file=sys.stderr)
        sys.exit(1)
