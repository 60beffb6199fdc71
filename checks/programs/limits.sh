#!/usr/bin/env bash
# Runs in the gate, from check.sh: kcore and kserve on inputs at each of their limits, and one past it. Silent if all is
# well.
#     checks/programs/limits.sh KCORE KSERVE
set -u
kcore=$(realpath "$1") && kserve=$(realpath "$2") && out=$(mktemp) || exit 1
cd "$(dirname "$0")/../../examples" || exit 1
trap 'rm -f "$out"' EXIT
failed=0

# ends NUMBER LINE PROGRAM WORDS..: for its standard input the program writes this line among others, and exits with
# this number. If LINE is empty, it writes nothing.
ends() {
  "${@:3}" >"$out"
  exited=$?
  if [ -n "$2" ]; then grep -qxF -- "$2" "$out"; else [ ! -s "$out" ]; fi
  if [ $? != 0 ] || [ $exited != "$1" ]; then
    echo "checks/programs/limits.sh: ${*:4}: exit number $exited, or no line '$2'"
    failed=1
  fi
}
# accepts PROGRAM WORDS..: these words are a command, which doesn't find the memory that it needs.
accepts() { (ulimit -v "$least" && "$@" >"$out"); [ $? = 5 ] || { echo "checks/programs/limits.sh: ${*:2}: not exit number 5"; failed=1; }; }

# The address space with which a program starts and little more, in KiB.
least=20000

# comment N: a comment of N bytes.
comment() { printf '#' && head -c $(($1 - 1)) /dev/zero | tr '\0' x && echo; }
# item N: an item of N bytes, most of them blanks.
item() { printf '0' && head -c $(($1 - 2)) /dev/zero | tr '\0' ' ' && echo 1; }
# items N: N items.
items() { yes '0 1' | head -n "$1"; }

# A line of 65,536 bytes is read, and one of 65,537 isn't: a comment, and an item.
added='batch 1 loops 0 repeats 0 idle 0 removed 0 added 1'
for line in comment item; do
  { printf 'kcore 1\nvertices 2\nbatch\n0 1\n' && $line 65536 && echo end; } | ends 0 'vertex 1 level 1 est 2 low 1 high 2 up 1 down 1' "$kcore" run 1
  { printf 'kcore 1\nvertices 2\nbatch\n0 1\n' && $line 65537 && echo end; } | ends 1 'batch 1 refused line 5 line-long' "$kcore" run 1
  { printf 'kserve 1\nvertices 2\nbatch\n' && $line 65536 && echo end; } | ends 0 end "$kserve" 1
  { printf 'kserve 1\nvertices 2\nbatch\n' && $line 65537 && echo end; } | ends 1 'refused line 4 line-long' "$kserve" 1
done
{ item 65536 | sed 's/^/kcore 1\nvertices 2\nbatch\n/' && echo end; } | ends 0 "$added" "$kcore" run 1
{ comment 65536 && cat cases/finer.cert; } | ends 0 'certified vertices 5 edges 2' "$kcore" check
{ comment 65537 && cat cases/finer.cert; } | ends 1 'refused line 1 line-long' "$kcore" check
# In a run text a line may be longer.
{ comment 65537 && cat cases/no_reader.run; } | ends 0 explained "$kcore" audit

# 64 asks, and 65,536 questions of one.
asks() { printf 'kcore 1\nvertices 5\n' && yes 'ask 1 4' | head -n "$1"; }
asks 64 | ends 0 'reader 63 4=0' "$kcore" run 2
asks 65 | ends 1 'refused line 67 header' "$kcore" run 2
printf 'kcore 1\nvertices 5\nask 32768 0 4\n' | ends 0 end "$kcore" run 2
printf 'kcore 1\nvertices 5\nask 32769 0 4\n' | ends 1 'refused line 3 header' "$kcore" run 2
printf 'kcore 1\nvertices 5\nask 65537 0\n' | ends 1 'refused line 3 header' "$kcore" run 2

# 1,048,576 items of a batch.
{ printf 'kcore 1\nvertices 2\nbatch\n' && items 1048576 && echo end; } | ends 0 'batch 1 loops 0 repeats 1048575 idle 0 removed 0 added 1' "$kcore" run 1
{ printf 'kcore 1\nvertices 2\nbatch\n' && items 1048577 && echo end; } | ends 1 'batch 1 refused line 1048580 too-many' "$kcore" run 1

# 16,777,216 vertices, and as many edges. If a header fits, its graph doesn't fit into the memory, or a later line is
# refused.
for words in "run 1" "final 1" "orient 1" exact dense; do
  printf 'kcore 1\nvertices 16777216\n' | accepts "$kcore" $words
  printf 'kcore 1\nvertices 16777217\n' | ends 1 'refused line 2 header' "$kcore" $words
done
printf 'kcore-cert 1\nprofile 1\nvertices 16777216\nedges 16777216\nx\n' | ends 1 'refused line 5 bad-line' "$kcore" check
printf 'kcore-cert 1\nprofile 1\nvertices 16777216\nedges 16777217\nx\n' | ends 1 'refused line 4 bad-line' "$kcore" check
printf 'kcore-cert 1\nprofile 1\nvertices 16777217\nedges 16777216\nx\n' | ends 1 'refused line 3 bad-line' "$kcore" check
printf 'kcore-run 1\nvertices 16777216\nx\n' | ends 1 'refused line 3 bad-line' "$kcore" audit
printf 'kcore-run 1\nvertices 16777217\nx\n' | ends 1 'refused line 2 bad-line' "$kcore" audit
printf 'kserve 1\nvertices 16777216\nx\n' | ends 1 'refused line 3 bad-line' "$kserve" 1
printf 'kserve 1\nvertices 16777217\nx\n' | ends 1 'refused line 2 header' "$kserve" 1

# The numbers of a generated load: a seed, vertices, batches, items of each and of all, and workers.
for words in "4294967295 5 1 3 1" "0 5 1024 0 1" "0 1 1 3 64"; do
  "$kcore" gen $words >"$out" || { echo "checks/programs/limits.sh: gen $words: exit number $?"; failed=1; }
done
# With fewer vertices it would depend on the stacks of the readers' threads whether the rest of the memory is enough.
for words in "0 16777216 1 0 1" "0 16777216 1 1048576 1" "0 16777216 32 1048576 1" "0 16777216 1024 32768 1"; do
  accepts "$kcore" gen $words
done
for words in "4294967296 5 1 3 1" "0 16777217 1 0 1" "0 0 1 3 1" "0 5 1025 0 1" "0 5 0 0 1" "0 5 1 1048577 1" "0 5 33 1048576 1" "0 5 1024 32769 1" "0 5 1 3 65" "0 5 1 3 0"; do
  ends 2 '' "$kcore" gen $words
done

# 64 workers.
for words in "run 64" "final 64" "orient 64"; do
  printf 'kcore 1\nvertices 1\n' | ends 0 end "$kcore" $words
  printf 'kcore 1\nvertices 1\n' | ends 2 '' "$kcore" "${words%4}5"
done
printf 'kserve 1\nvertices 1\n' | ends 0 end "$kserve" 64
printf 'kserve 1\nvertices 1\n' | ends 2 '' "$kserve" 65

# 64 scripts, and 1,048,576 items of all of them.
# scripts N M: N scripts of M items each.
scripts() {
  printf 'kserve 1\nvertices 2\n'
  for _ in $(seq "$1"); do
    echo batch && items "$2" && echo end
  done
}
scripts 64 0 | ends 0 end "$kserve" 2
scripts 65 0 | ends 1 'refused line 132 too-many' "$kserve" 2
# A fault of the 65th script goes before its number.
{ scripts 64 0 && printf 'batch\n0 9\nend\n'; } | ends 1 'refused line 132 bad-vertex' "$kserve" 2
{ scripts 64 0 && echo end; } | ends 1 'refused line 131 bad-line' "$kserve" 2
scripts 1 1048577 | ends 1 'refused line 1048580 too-many' "$kserve" 2
{ scripts 2 524288 && printf 'batch\n0 1\nend\n'; } | ends 1 'refused line 1048585 too-many' "$kserve" 2
# A fault after it, in another script.
{ scripts 2 524289 && echo '0 9'; } | ends 1 'refused line 1048584 too-many' "$kserve" 2
scripts 2 524288 | ends 0 'vertex 0 level 1 est 2 low 1 high 2 up 1 down 1' "$kserve" 2
[ "$(grep -c '^take ' "$out")" = 1048576 ] || { echo "checks/programs/limits.sh: not all of 1048576 updates are printed"; failed=1; }
exit $failed
