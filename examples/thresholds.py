#!/usr/bin/env python3
"""Writes the thresholds of each level, as CSV, for checks of levels by other tools, such as `check.sql`.

    thresholds.py VERTICES [PROFILE]

VERTICES is the number of vertices, 1 or more; PROFILE is 1 or 2, 1 if not given. One line for each level from 0 to the
top level: `level,band,most,least,low,est,high`. A vertex of this level may have at most `most` neighbours on its level
or above, and needs at least `least` on the level before it or above. Then its coreness is at least `low` and at most
`high`, and `est` is the estimate. Defined in docs/DEFINITIONS.md, "Thresholds". Exit number: 0 all is written, 1 a
write failed, 2 the words of the command line are wrong.
"""
import sys


def thresholds(n, profile):
    """For each level from 0 to the top: its band, the most and least neighbours, and the two bounds of the coreness."""
    part, above, below = (4, 4, 9) if profile == 1 else (8, 8, 17)

    def step(low):
        return low + max(1, low // part)

    def most_of(band):
        if band == 0:
            return 0
        return 2 * lows[band] if profile == 1 else lows[band] + lows[band] // 2

    # (a set that grows by a quarter, or an eighth, rounded up, at each level outgrows n after `height` levels)
    height, size = 0, 1
    while size <= n:
        height, size = height + 1, ((part + 1) * size + part - 1) // part
    lows = [1, 1]
    while most_of(len(lows) - 1) < n - 1:
        lows.append(step(lows[-1]))
    last = len(lows) - 1
    for level in range(2 + (last - 1) * height):
        band = 0 if level == 0 else 1 + (level - 1) // height
        least = 0 if level == 0 else lows[0 if level == 1 else 1 + (level - 2) // height]
        low = band if band < 2 else above * lows[band - 1] // below + 1
        yield level, band, most_of(band), least, low, most_of(band)


def stop(why):
    print(f"thresholds.py: {why}", file=sys.stderr)
    sys.exit(2)


def main():
    words = sys.argv[1:]
    if words in (["-h"], ["--help"]):
        sys.exit(print(__doc__))
    if len(words) not in (1, 2):
        stop(f"{len(words)} words where VERTICES [PROFILE] are wanted; --help says what they are")
    if not (words[0].isascii() and words[0].isdigit() and int(words[0])):
        stop(f"{words[0]!r} isn't a number of vertices, 1 or more")
    if words[1:] not in ([], ["1"], ["2"]):
        stop(f"{words[1]!r} isn't a profile, 1 or 2")
    rows = thresholds(int(words[0]), int((words + ["1"])[1]))
    try:
        with open(1, "w", closefd=False) as out:
            out.write("level,band,most,least,low,est,high\n")
            for level, band, most, least, low, high in rows:
                out.write(f"{level},{band},{most},{least},{low},{2 * low},{high}\n")
    except BrokenPipeError:
        # (nothing reads on, as after `| head`)
        sys.exit(1)
    except OSError as fault:
        sys.exit(f"thresholds.py: {fault}")


if __name__ == "__main__":
    main()
