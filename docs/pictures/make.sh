#!/usr/bin/env bash
# Makes the pictures of the documents anew.
#     docs/pictures/make.sh PROGRAM
# PYTHON names a python3 that has matplotlib, if the one on the path has none.
set -eu
program=$(realpath "$1")
cd "$(dirname "$0")"
python=${PYTHON:-python3}
scratch=$(mktemp -d)
trap 'rm -rf "$scratch"' EXIT

draw() { "$python" ../../examples/draw.py "$@"; }

draw graph ../../examples/karate.kc ../../examples/karate_exact.txt karate.svg

# 40,000 edges between 4,096 vertices, degrees by a power law: half of them in batches of 2,000, and then each batch takes
# the oldest 1,000 out and puts the next 1,000 in. And 10,000 such edges between 2,048 vertices in one batch.
PYTHONDONTWRITEBYTECODE=1 PYTHONPATH=../../bench "$python" - "$scratch" <<'MAKE'
import random
import sys
from bench import in_batches, in_window, power_edges, snap, write_input
edges = power_edges(12, 40_000, 7)
random.Random(11).shuffle(edges)
write_input(sys.argv[1], "window", 4_096, list(in_window(edges, 1_000, 2_000)))
write_input(sys.argv[1], "power", 2_048, [snap(power_edges(11, 10_000, 7))])
write_input(sys.argv[1], "readers", 4_096, in_batches(edges, 200))
MAKE
# These edges in 200 batches, beside a reader. What it is told depends on how the threads run, and so does its picture.
sed -i '2a ask 1000 0 1 3 7 15 31' "$scratch/readers.kc"
for name in window power readers; do
  "$program" run 1 <"$scratch/$name.kc" >"$scratch/$name.txt"
  "$program" exact <"$scratch/$name.kc" >"$scratch/${name}_exact.txt"
done
draw run --exact "$scratch/window_exact.txt" "$scratch/window.txt" window.svg
draw heat "$scratch/window.txt" heat.svg
draw readers "$scratch/readers.txt" readers.svg
draw graph "$scratch/power.kc" "$scratch/power_exact.txt" power.png
