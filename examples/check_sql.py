#!/usr/bin/env python3
"""Checks a certificate by `check.sql` in SQLite, which comes with Python.

    check_sql.py < certificate

Reads a certificate as `kcore final` writes it, puts its edges and levels into tables, and runs `check.sql`. Says the
result in the words of `kcore check`: `certified vertices N edges M`, `upper V` or `lower V`; or `malformed V`. Exit
number: 0 certified, 1 not. It trusts the form of the text; `kcore check` reads it strictly.
"""
import os
import sqlite3
import sys

from thresholds import thresholds

HERE = os.path.dirname(os.path.abspath(__file__))


def main():
    if sys.argv[1:]:
        print(__doc__, file=sys.stderr)
        sys.exit(2)
    base = sqlite3.connect(":memory:")
    # (as an import of CSV makes the tables, whose columns are texts)
    base.executescript("CREATE TABLE edges (u TEXT, v TEXT); CREATE TABLE levels (vertex TEXT, level TEXT);"
                       "CREATE TABLE thresholds (level TEXT, most TEXT, least TEXT);")
    said, rows = {}, {"edge": [], "level": []}
    for line in sys.stdin:
        words = line.split()
        if words and words[0] in rows:
            rows[words[0]].append((int(words[1]), int(words[2])))
        elif len(words) == 2:
            said[words[0]] = int(words[1])
    if not {"vertices", "profile"} <= said.keys():
        sys.exit("check_sql.py: no lines `profile` and `vertices`; it wants what `kcore final` prints")
    base.executemany("INSERT INTO edges VALUES (?, ?)", rows["edge"])
    base.executemany("INSERT INTO levels VALUES (?, ?)", rows["level"])
    limits = thresholds(said["vertices"], said["profile"])
    base.executemany("INSERT INTO thresholds VALUES (?, ?, ?)", ((level, most, least) for level, _, most, least, _, _ in limits))
    with open(f"{HERE}/check.sql", encoding="utf-8") as file:
        found = base.execute(file.read()).fetchone()
    print(f"{found[0]} {found[1]}" if found else f"certified vertices {len(rows['level'])} edges {len(rows['edge'])}")
    sys.exit(1 if found else 0)


if __name__ == "__main__":
    main()
