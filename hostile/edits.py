#!/usr/bin/env python3
"""Puts the wrong bodies of hostile/edits into a copy of the repository, and checks that the prover refuses each. Runs
by hand.

    hostile/edits.py [CRATE | CRATE/NAME ..] [--lot N] [--seed S] [--list]

The gate tries the few edits of crates/CRATE/must-fail and checks/refused. This tries the others: all, those of a crate,
or those that are named. hostile/edits/TABLE.md says what refuses each. --lot tries N of these, drawn with the seed S
(1).

Copies the crates to a temporary folder, puts the chosen edits into must-fail/ there, and runs `rt must-fail` for these
crates. Prints a line for each edit and a count; ends with 1 if an edit isn't refused or doesn't fit the sources any
more. --list only prints the names of the chosen edits.

Proves each crate once and takes 12 to 80 seconds more for each edit, on all processors that the process may use
(`taskset`). `rt must-fail` begins with what `rt check` kept on this machine.
"""
import argparse
import os
import random
import re
import shutil
import subprocess
import sys
import tempfile

TOP = os.path.normpath(os.path.join(os.path.dirname(os.path.abspath(__file__)), ".."))
sys.path.insert(0, os.path.join(TOP, "checks"))
from edits import OTHERS, Unfit, edited, edits_in, read  # noqa: E402

SAID = re.compile(r"^(?:rt: )?must-fail (\w+)/(\S+)\.edit: (.*)$")


def chosen(options):
    """Returns crate, name and path of each edit that the options choose."""
    found = [edit for edit in edits_in(OTHERS) if not options.which or edit[0] in options.which or f"{edit[0]}/{edit[1]}" in options.which]
    known = {word for crate, name, _ in found for word in (crate, f"{crate}/{name}")}
    lacking = [word for word in options.which if word not in known]
    if lacking:
        sys.exit(f"there is no edit of {', '.join(lacking)} in hostile/edits")
    if options.lot is not None:
        found = sorted(random.Random(options.seed).sample(found, min(options.lot, len(found))))
    return found


def why_unfit(crate, path):
    """Returns why an edit doesn't fit the sources, or None."""
    try:
        edited(read(path), lambda file: read(os.path.join(TOP, "crates", crate, file)))
    except (Unfit, OSError) as error:
        return str(error)
    return None


def answers(edits, folder):
    """Runs `rt must-fail` in a copy of the repository in `folder`. Returns what it says of each edit, by crate and
    name."""
    shutil.copytree(os.path.join(TOP, "crates"), os.path.join(folder, "crates"), ignore=shutil.ignore_patterns("out", "must-fail"))
    for name in "crates.txt", "HANDLES":
        shutil.copy(os.path.join(TOP, name), folder)
    for crate, name, path in edits:
        os.makedirs(os.path.join(folder, "crates", crate, "must-fail"), exist_ok=True)
        shutil.copy(path, os.path.join(folder, "crates", crate, "must-fail", f"{name}.edit"))
    crates = sorted({crate for crate, _, _ in edits})
    said = {}
    with subprocess.Popen(["rt", "must-fail", *crates], cwd=folder, stdin=subprocess.DEVNULL, stdout=subprocess.PIPE, stderr=subprocess.STDOUT,
                          text=True, errors="replace") as run:
        for line in run.stdout:
            if found := SAID.match(line.rstrip("\n")):
                said[found.group(1), found.group(2)] = found.group(3)
            else:
                print(f"    {line.rstrip()}", file=sys.stderr)
    return said


def main():
    parser = argparse.ArgumentParser(description=__doc__, formatter_class=argparse.RawDescriptionHelpFormatter)
    parser.add_argument("which", nargs="*", metavar="CRATE or CRATE/NAME")
    parser.add_argument("--lot", type=int)
    parser.add_argument("--seed", type=int, default=1)
    parser.add_argument("--list", action="store_true")
    options = parser.parse_args()
    edits = chosen(options)
    if options.list:
        for crate, name, _ in edits:
            print(f"{crate}/{name}")
        return
    unfit = {edit[:2]: why for edit in edits if (why := why_unfit(edit[0], edit[2]))}
    fit = [edit for edit in edits if edit[:2] not in unfit]
    said = {}
    if fit:
        with tempfile.TemporaryDirectory(prefix="edits.") as folder:
            said = answers(fit, folder)
    wrong = 0
    for crate, name, _ in edits:
        answer = f"BAD: {unfit[crate, name]}" if (crate, name) in unfit else said.get((crate, name), "NOT TRIED")
        wrong += not answer.startswith("refused")
        print(f"{crate}/{name}: {answer}")
    print(f"{len(edits)} wrong bodies, {wrong} not refused")
    sys.exit(1 if wrong else 0)


if __name__ == "__main__":
    main()
