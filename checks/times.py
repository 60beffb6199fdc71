#!/usr/bin/env python3
"""Says how long the gate took for each crate. Runs in the gate, beside `rt ci`.

    checks/times.py PID

Watches the checks below the process PID, second by second, until it is ended by SIGTERM. Then prints a line for each crate: the seconds of
processor time of its proof, of its tests and of its must-fail edits, with their sums, and how long all took by the clock. What ran for less
than a second may be missed, and builds and runs of programs aren't counted.
"""
import collections
import os
import signal
import sys
import time

TICKS = os.sysconf("SC_CLK_TCK")
KINDS = ("proof", "tests", "edits")


def stat_of(pid):
    """The parent of a process, when it began and the seconds that it and its ended children have used."""
    with open(f"/proc/{pid}/stat") as file:
        words = file.read().rpartition(")")[2].split()
    return int(words[1]), words[19], sum(map(int, words[11:15])) / TICKS


def check_of(pid):
    """The crate and the kind of a check that the process makes, or None."""
    with open(f"/proc/{pid}/cmdline", "rb") as file:
        words = file.read().decode(errors="replace").split("\0")
    if os.path.basename(words[0]) != "rattle" or "--crate-name" not in words:
        return None
    crate = words[words.index("--crate-name") + 1]
    if "--test" in words:
        return crate, "tests"
    return crate, "edits" if words[1] == "check" and "--incremental" in words else "proof"


def look(root, seen):
    """Notes the checks that run below the process `root`, each with the time that it has used."""
    parents, found = {}, []
    for pid in filter(str.isdigit, os.listdir("/proc")):
        try:
            parents[int(pid)], began, used = stat_of(pid)
            check = check_of(pid)
        except (OSError, ValueError, IndexError):
            # (ended meanwhile)
            continue
        if check:
            found.append((int(pid), began, check, used))
    for pid, began, check, used in found:
        above = parents.get(pid)
        while above and above != root:
            above = parents.get(above)
        if above == root:
            seen[pid, began] = check, used


def told(seen, seconds):
    """The lines of the table."""
    used = collections.Counter()
    for check, time_used in seen.values():
        used[check] += time_used
    crates = sorted({crate for crate, _ in used}, key=lambda it: -sum(used[it, kind] for kind in KINDS))
    yield f"{'processor seconds':<20}{''.join(f'{kind:>8}' for kind in KINDS)}{'all':>8}"
    for crate in [*crates, "all"]:
        row = [sum(used[it, kind] for it in (crates if crate == "all" else [crate])) for kind in KINDS]
        yield f"{crate:<20}{''.join(f'{it:8.0f}' for it in [*row, sum(row)])}"
    yield f"{seconds / 60:.0f} minutes by the clock, {sum(used.values()) / 60:.0f} minutes of processor time in checks"


def main():
    root, seen, began, ends = int(sys.argv[1]), {}, time.monotonic(), []
    signal.signal(signal.SIGTERM, lambda *_: ends.append(True))
    while not ends and os.path.isdir(f"/proc/{root}"):
        look(root, seen)
        time.sleep(1)
    if seen:
        print("\n".join(told(seen, time.monotonic() - began)), flush=True)
    else:
        print("No crate was proved in this run: all was kept", flush=True)


if __name__ == "__main__":
    main()
