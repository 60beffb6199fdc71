#!/usr/bin/env python3
"""Holds `check.sql` in SQLite against `kcore check`, on certificates that hold and on ones with one level or edge
changed. Run by `check.sh`.

    checks/programs/test_check_sql.py KCORE

Prints a line for each certificate on which they differ; the exit number is then 1. Both have to certify the
certificates in `examples`, and to refuse some of the changed ones for each invariant.
"""
import glob
import os
import random
import subprocess
import sys

EXAMPLES = os.path.normpath(os.path.join(os.path.dirname(os.path.abspath(__file__)), "../../examples"))
sys.path.append(EXAMPLES)
from thresholds import thresholds  # noqa: E402


def verdicts(program, text):
    """What each of the two says of a certificate."""
    given = text.encode()
    ran = [subprocess.run(words, input=given, stdout=subprocess.PIPE, stderr=subprocess.PIPE)
           for words in ([program, "check"], [sys.executable, f"{EXAMPLES}/check_sql.py"])]
    return [it.stdout.decode().strip() for it in ran]


def changed(text, draw):
    """The certificate with one level changed, or with an edge taken out."""
    lines = text.splitlines()
    numbers = {words[0]: int(words[1]) for words in map(str.split, lines) if len(words) == 2 and words[0] != "kcore-cert"}
    top = max(level for level, *_ in thresholds(numbers["vertices"], numbers["profile"]))
    edges = [at for at, line in enumerate(lines) if line.startswith("edge ")]
    if edges and draw.random() < 0.3:
        lines[lines.index(f"edges {numbers['edges']}")] = f"edges {numbers['edges'] - 1}"
        del lines[draw.choice(edges)]
    else:
        at = draw.choice([at for at, line in enumerate(lines) if line.startswith("level ")])
        word, vertex, level = lines[at].split()
        lines[at] = f"{word} {vertex} {draw.choice([0, draw.randint(0, top), min(top, int(level) + 1), max(0, int(level) - 1)])}"
    return "\n".join(lines) + "\n"


def main():
    if len(sys.argv) != 2:
        sys.exit(__doc__)
    program, draw, failed, met = os.path.abspath(sys.argv[1]), random.Random(1), False, set()
    for path in sorted(glob.glob(f"{EXAMPLES}/*_final.txt") + glob.glob(f"{EXAMPLES}/cases/*_final.txt")):
        with open(path, encoding="utf-8") as file:
            text = file.read()
        if not text.startswith("kcore-cert"):
            # (the input was refused)
            continue
        for number in range(4):
            tried = text if number == 0 else changed(text, draw)
            said, by_sql = verdicts(program, tried)
            met.add(said.split()[0])
            if said != by_sql or number == 0 and not said.startswith("certified"):
                print(f"{path}: change {number}: `check` says '{said}', check.sql '{by_sql}'")
                failed = True
    if not {"certified", "upper", "lower"} <= met:
        print(f"checks/programs/test_check_sql.py: only {sorted(met)} came up")
        failed = True
    sys.exit(failed)


if __name__ == "__main__":
    main()
