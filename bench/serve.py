#!/usr/bin/env python3
"""Time of `kserve 4` on eight scripts, beside `kcore run 4` on the same updates in batches of 1,024. Runs by hand.

    bench/serve.py [--kserve PATH] [--kcore PATH] [--runs N] [--items N] [--keep DIR]

The scripts have 125,000 items each, insertions of random edges among 100,000 vertices, from a fixed seed. `kcore` gets
the first update of each client, then the second of each, and so on. The seconds are those that pass, of each program
the best of several runs; the runs of the programs take turns. It judges nothing: times on a shared machine are ratios
at best.
"""
import argparse
import itertools
import os
import random
import tempfile

from bench import in_batches, input_path, run_once, signed, write_input

CLIENTS, VERTICES, MOST = 8, 100_000, 1024


def scripts_of(items):
    draw = random.Random(29)
    return [[(draw.randrange(VERTICES), draw.randrange(VERTICES)) for _ in range(items)] for _ in range(CLIENTS)]


def make_inputs(folder, items):
    scripts = scripts_of(items)
    with open(input_path(folder, "serve"), "w") as file:
        file.write(f"kserve 1\nvertices {VERTICES}\n")
        for script in scripts:
            file.write(f"batch\n{signed(script)}end\n")
    in_turn = list(itertools.chain.from_iterable(zip(*scripts)))
    write_input(folder, "run", VERTICES, in_batches(in_turn, MOST))


def main():
    crates = os.path.join(os.path.dirname(os.path.abspath(__file__)), "..", "crates")
    parser = argparse.ArgumentParser(description=__doc__, formatter_class=argparse.RawDescriptionHelpFormatter)
    parser.add_argument("--kserve", default=os.path.join(crates, "kserve", "out", "kserve"))
    parser.add_argument("--kcore", default=os.path.join(crates, "kcore", "out", "kcore"))
    parser.add_argument("--runs", type=int, default=5)
    parser.add_argument("--items", type=int, default=125_000)
    parser.add_argument("--keep", help="a folder for the inputs")
    options = parser.parse_args()
    with tempfile.TemporaryDirectory() as temporary:
        folder = options.keep or temporary
        make_inputs(folder, options.items)
        best = {"serve": float("inf"), "run": float("inf")}
        for _ in range(options.runs):
            for name, program, words in (("serve", options.kserve, ["4"]), ("run", options.kcore, ["run", "4"])):
                best[name] = min(best[name], run_once(program, words, input_path(folder, name))[2])
    print(f"kserve 4 {best['serve']:.3f} s, kcore run 4 {best['run']:.3f} s, ratio {best['serve'] / best['run']:.2f}")


if __name__ == "__main__":
    main()
