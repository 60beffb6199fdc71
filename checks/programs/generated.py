#!/usr/bin/env python3
"""Prints the input that `kcore gen SEED N B M W` makes.

    checks/programs/generated.py SEED N B M > load.kc

B batches of M items between N vertices, drawn from SEED. With --counts reads a text of `kcore run` instead. It then
prints the line that `kcore gen` writes for an input with that text.
"""
import sys


def load(seed, vertices, batches, items):
    state = seed

    def draw():
        nonlocal state
        state = (1664525 * state + 1013904223) % 2**32
        return state // 256

    yield "kcore 1"
    yield f"vertices {vertices}"
    for _ in range(2):
        yield " ".join(["ask 4", *map(str, range(min(vertices, 16)))])
    for _ in range(batches):
        yield "batch"
        for _ in range(items):
            u, v, kind = draw(), draw(), draw()
            yield f"{'-' if kind % 4 == 0 else '+'} {u % vertices} {v % vertices}"
        yield "end"


def counts(lines):
    batches = refused = phases = groups = moves = edges = replies = top = 0
    for words in map(str.split, lines):
        if words[0] == "batch":
            batches += 1
            if words[2] == "refused":
                refused += 1
            else:
                edges += int(words[words.index("added") + 1]) - int(words[words.index("removed") + 1])
        elif words[0] == "phase":
            phases += 1
        elif words[0] == "group":
            groups += 1
            moves += len(words) - 3
        elif words[0] == "reader":
            replies += len(words) - 2
        elif words[0] == "vertex":
            top = max(top, int(words[3]))
    return f"gen batches {batches} refused {refused} phases {phases} groups {groups} moves {moves} edges {edges} replies {replies} top {top}"


if __name__ == "__main__":
    if sys.argv[1:] == ["--counts"]:
        print(counts(sys.stdin))
    elif len(sys.argv) == 5:
        sys.stdout.writelines(line + "\n" for line in load(*map(int, sys.argv[1:])))
    else:
        sys.exit(__doc__)
