#!/usr/bin/env bash
# Puts the two programs that the gate has built into this folder, and their checksums beside them. Run it after
# `.ci/run` or `rt ci`.
set -eu
cd "$(dirname "$0")"
for name in kcore kserve; do
  install -m 755 "../crates/$name/out/$name" "$name"
done
sha256sum kcore kserve >SHA256SUMS
