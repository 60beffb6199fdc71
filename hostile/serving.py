#!/usr/bin/env python3
"""Runs kserve over and over on random scripts, and checks each text that it writes. Runs by hand.

    hostile/serving.py [--program PATH] [--kcore PATH] [--runs N] [--clients N] [--items N] [--seed S]

In each of N (200) runs eight clients have scripts of very different lengths. Checks of what is printed:

- the updates of each client are its script, in order, each once;
- batches are numbered and have 1 to 1,024 updates;
- the lines of the vertices are those of `kcore run` on the same batches.

Two runs on one input may print different batches, and both are right. Prints how many batches there were, and how often
updates of two clients were next to each other. The exit number is 1 if something was wrong. Whether threads come in
each other's way depends on the machine, so this isn't part of the gate.
"""
import argparse
import os
import random
import subprocess
import sys

sys.path.insert(0, os.path.join(os.path.dirname(os.path.abspath(__file__)), "lib"))
from served import block, fault_of, run  # noqa: E402


def script_of(draw, n, items):
    signs = ("+", "+", "+", "-")
    return [f"{draw.choice(signs)} {draw.randrange(n)} {draw.randrange(n)}" for _ in range(draw.randrange(items))]


def answer_of(options, workers, n, scripts):
    """What kserve writes of scripts, and what is wrong with it, or None."""
    written = ""
    try:
        status, written, errors = run(options.program, [str(workers)], f"kserve 1\nvertices {n}\n" + "".join(map(block, scripts)))
        return written, f"ended with {status}" if status or errors else fault_of(n, scripts, written, options.kcore)
    except subprocess.TimeoutExpired as hung:
        return written, f"{os.path.basename(hung.cmd[0])} had not ended after {hung.timeout} s"


def main():
    crates = os.path.join(os.path.dirname(os.path.abspath(__file__)), "..", "crates")
    parser = argparse.ArgumentParser(description=__doc__, formatter_class=argparse.RawDescriptionHelpFormatter)
    parser.add_argument("--program", default=os.path.join(crates, "kserve", "out", "kserve"))
    parser.add_argument("--kcore", default=os.path.join(crates, "kcore", "out", "kcore"))
    parser.add_argument("--runs", type=int, default=200)
    parser.add_argument("--clients", type=int, default=8)
    parser.add_argument("--items", type=int, default=4000)
    parser.add_argument("--seed", type=int, default=1)
    options = parser.parse_args()
    draw, batches, changes, wrong = random.Random(options.seed), 0, 0, 0
    for number in range(1, options.runs + 1):
        n = draw.choice((2, 20, 300, 2000))
        scripts = [script_of(draw, n, draw.choice((2, 50, options.items))) for _ in range(options.clients)]
        written, fault = answer_of(options, draw.randrange(1, 5), n, scripts)
        if fault:
            wrong += 1
            print(f"run {number}: {fault}")
        clients = [line.split(" ")[1] for line in written.split("\n") if line.startswith("take ")]
        batches += written.count("\nbatch ")
        changes += sum(a != b for a, b in zip(clients, clients[1:]))
    print(f"{options.runs} runs, {wrong} wrong; {batches} batches, {changes} changes of client")
    sys.exit(1 if wrong else 0)


if __name__ == "__main__":
    main()
