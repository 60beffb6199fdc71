#!/usr/bin/env python3
"""Runs kcore and kserve with memory, threads, devices and inputs that fail, and checks how each run ends. Runs by hand.

    hostile/check.py [--program PATH] [--kserve PATH] [--engine-tests PATH] [--of PROGRAM] [--only WORD] [--short]

Each run has to end by itself, with the right exit number:

- 0 or 1 with the whole text;
- 2 with nothing read or written;
- 3 after a read that failed, 4 after a write that failed, 5 without memory, each with a prefix of the text.

Nothing is ever written to the standard error. Prints a line for each thing that was tried, with how its runs ended, and
below it what was wrong. The last line counts, also the things that weren't tried since a program for them wasn't made.
The exit number is 1 if something was wrong.

--of kcore and --of kserve try one of the programs alone. --only WORD tries the things with this word in their name, as
`memory`. --short leaves out inputs of a gibibyte. Wants Linux and a C compiler, for failing_calls.c, which stands in
front of the C library. The order of allocations depends on the machine, so this isn't part of the gate. A new command
is a line of COMMANDS.
"""
import argparse
import collections
import os
import sys

sys.path.insert(0, os.path.join(os.path.dirname(os.path.abspath(__file__)), "lib"))
import broken  # noqa: E402
import calls  # noqa: E402
import clients  # noqa: E402
import devices  # noqa: E402
from program import Program  # noqa: E402
from trials import BATCHES, Command, Kcore  # noqa: E402

COMMANDS = [
    Command("run 2", BATCHES, is_noted=False),
    Command("final 2", BATCHES, is_noted=True),
    Command("orient 2", BATCHES, is_noted=True),
    Command("exact", BATCHES, is_noted=True),
    Command("dense", BATCHES, is_noted=True),
    Command("check", ["karate_batches_final.txt", "breach.cert", "karate.txt"], is_noted=False),
    Command("audit", ["karate_batches.txt", "unexplained.run", "karate.kc"], is_noted=False),
    # It reads nothing.
    Command("gen 1 40 3 60 2", ["cases/nothing.kc"], is_noted=False),
]


def tried(trials, subject, options):
    """Tries those that are chosen, and tells how each ended. Gives how many runs there were, how many things were wrong, and how many
    weren't tried."""
    counts = collections.Counter()
    for one in trials:
        if options.only not in one.__name__ or options.short and one.__name__.startswith("great_"):
            continue
        for trial in one(subject):
            trial.tell()
            counts.update(runs=sum(trial.ends.values()), wrong=len(trial.wrong), untried=int(not trial.ends))
    return counts


def main():
    here = os.path.dirname(os.path.abspath(__file__))
    parser = argparse.ArgumentParser(description=__doc__, formatter_class=argparse.RawDescriptionHelpFormatter)
    crates = os.path.join(here, "..", "crates")
    parser.add_argument("--program", default=os.path.join(crates, "kcore", "out", "kcore"))
    parser.add_argument("--kserve", default=os.path.join(crates, "kserve", "out", "kserve"))
    parser.add_argument("--engine-tests", default=os.path.join(crates, "store_tests", "out", "store_tests_tests"))
    parser.add_argument("--of", choices=("kcore", "kserve"))
    parser.add_argument("--only", default="")
    parser.add_argument("--short", action="store_true")
    options = parser.parse_args()
    counts = collections.Counter()
    if options.of != "kserve":
        program = Program(options.program)
        try:
            kcore = Kcore(program, COMMANDS, os.path.normpath(options.engine_tests))
            counts.update(tried(calls.TRIALS + devices.TRIALS + broken.TRIALS, kcore, options))
        finally:
            program.close()
    if options.of != "kcore":
        program = Program(options.kserve)
        try:
            kserve = clients.Kserve(program, os.path.abspath(options.program))
            counts.update(tried(clients.SHARED + clients.TRIALS, kserve, options))
        finally:
            program.close()
    print(f"{counts['runs']} runs, {counts['wrong']} wrong, {counts['untried']} not tried")
    sys.exit(1 if counts["wrong"] else 0)


if __name__ == "__main__":
    main()
