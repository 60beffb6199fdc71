#!/usr/bin/env bash
# Runs in the gate, after `rt ci`. Compares the programs in dist/ byte for byte with those that the gate has just
# proved and built, and their checksums with SHA256SUMS. Silent where all is well.
set -u
cd "$(dirname "$0")/../dist" || exit 1
failed=0
wrong() { echo "dist/$1. Run dist/renew.sh, and commit what it makes."; failed=1; }

for name in kcore kserve; do
  cmp -s "../crates/$name/out/$name" "$name" || wrong "$name isn't the program that the gate has built"
  [ -x "$name" ] || wrong "$name can't be run"
done
sha256sum kcore kserve 2>/dev/null | cmp -s - SHA256SUMS 2>/dev/null || wrong "SHA256SUMS has other checksums than those of kcore and kserve"
exit $failed
