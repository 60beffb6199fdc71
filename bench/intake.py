#!/usr/bin/env python3
"""How many updates a second eight clients get through an intake to a server that only drains. Runs by hand.

    bench/intake.py [--program PATH] [--runs N]

Runs `intake_bench` N times (41); its root file says what it measures. Prints the median and the best of the runs in
updates a second, and in how many runs there were fewer than 2,000,000 updates a second. It judges nothing: times on a
shared machine are ratios at best. Nine threads run, and take turns if there are fewer processors.
"""
import argparse
import os
import statistics
import subprocess

PROGRAM = os.path.join(os.path.dirname(__file__), "..", "crates", "intake_bench", "out", "intake_bench")
FEW = 2_000_000


def rate(program):
    """Updates a second of one run."""
    out = subprocess.run([program, "timed"], check=True, capture_output=True, text=True).stdout
    words = out.split()
    of = dict(zip(words[::2], map(int, words[1::2])))
    return of["updates"] * 1e9 / of["nanoseconds"]


def main():
    parser = argparse.ArgumentParser(description="Updates a second through an intake.")
    parser.add_argument("--program", default=PROGRAM)
    parser.add_argument("--runs", type=int, default=41)
    words = parser.parse_args()
    rates = [rate(words.program) for _ in range(words.runs)]
    print(f"median {statistics.median(rates):12,.0f} updates a second")
    print(f"best   {max(rates):12,.0f} updates a second")
    print(f"{sum(each < FEW for each in rates)} of {words.runs} runs below {FEW:,}")


if __name__ == "__main__":
    main()
