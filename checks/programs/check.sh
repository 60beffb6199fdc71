#!/usr/bin/env bash
# Runs in the gate, after the static checks. Runs kcore on each input in `examples` and `examples/cases`: it has to
# write the text beside it, and to exit with 1 if it refuses something. Tries each exit number, of kserve too, each
# limit (`limits.sh`), answers over a pipe that stays open (`live.sh`) and inputs in pieces (`pieces.py`). Then tries
# the converter and `check.sql`, compares corenesses and levels with those of plain programs, and tries `draw.py`, if
# there is matplotlib. Silent if all is well.
#     checks/programs/check.sh KCORE KSERVE
set -u
program=$(realpath "$1") || exit 1
kserve=$(realpath "$2") || exit 1
here=$(realpath "$(dirname "$0")") || exit 1
cd "$here/../../examples" || exit 1
out=$(mktemp) && err=$(mktemp) && long=$(mktemp) && turns=$(mktemp) && strip=$(mktemp) || exit 1
trap 'rm -f "$out" "$out.svg" "$err" "$long" "$turns" "$strip"' EXIT
failed=0
wrong() { echo "checks/programs/check.sh: $1"; failed=1; }

# writes INPUT TEXT WORDS..: the program writes this text of this input.
writes() {
  "$program" "${@:3}" <"$1" >"$out"
  exited=$?
  cmp -s "$out" "$2" || wrong "$1: another text by ${*:3} than in $2"
  if grep -q refused "$2"; then wanted=1; else wanted=0; fi
  [ $exited = $wanted ] || wrong "$1: exit number $exited of ${*:3}"
}

for input in *.kc cases/*.kc; do
  [ "$input" = readers.kc ] || writes "$input" "${input%.kc}.txt" run 1
done

# Any number of workers writes the same.
for input in karate_batches.kc cases/*.kc; do
  for workers in 3 064; do
    writes "$input" "${input%.kc}.txt" run $workers
  done
done

for text in *_exact.txt cases/*_exact.txt; do
  writes "${text%_exact.txt}.kc" "$text" exact
done

for text in *_final.txt cases/*_final.txt; do
  writes "${text%_final.txt}.kc" "$text" final 1
  writes "${text%_final.txt}.kc" "$text" final 3
  grep -q '^refused' "$text" && continue
  "$program" check <"$text" >"$out"
  [ $? = 0 ] && grep -q '^certified ' "$out" || wrong "$text isn't certified"
done

# So is the text of `final` for other inputs, with any number of workers.
for input in path.kc isolate.kc; do
  for workers in 1 3; do
    "$program" final $workers <"$input" | "$program" check >"$out"
    grep -q '^certified ' "$out" || wrong "$input: what final $workers writes isn't certified"
  done
done

# A text of `run` is explained.
for text in *.txt cases/*.txt; do
  [ "$text" != readers.txt ] && grep -q '^kcore-run' "$text" || continue
  "$program" audit <"$text" >"$out"
  [ $? = 0 ] && grep -qx explained "$out" || wrong "$text isn't explained"
done

# Readers beside the batches change nothing but their own lines. For one more `ask` the line numbers of refusals are one
# greater. The replies are explained.
for input in cases/*.kc; do
  grep -q '^refused' "${input%.kc}.txt" && continue
  awk '{ print } $1 == "vertices" && !n { n = $2 + 0; print "ask 7 0", n - 1, int(n / 2) }' "$input" >"$err"
  for workers in 1 4; do
    "$program" run $workers <"$err" >"$out"
    awk '$1 == "batch" && $3 == "refused" { $5 += 1 } $1 != "reader"' "${input%.kc}.txt" | cmp -s - <(grep -v '^reader' "$out") || wrong "$input: another text by run $workers beside one more reader"
    "$program" audit <"$out" | grep -qx explained || wrong "$input: run $workers beside one more reader isn't explained"
  done
done

# says LINE WORDS.. <DOCUMENT: the program writes this line for this document, and exits with 1 if the document isn't
# right.
says() {
  "$program" "${@:2}" >"$out"
  exited=$?
  case $1 in certified* | explained) wanted=0 ;; *) wanted=1 ;; esac
  [ $exited = $wanted ] && echo "$1" | cmp -s - "$out" || wrong "exit number $exited, or another line of ${*:2} than '$1'"
}
for line in cases/*_check.txt; do
  says "$(cat "$line")" check <"${line%_check.txt}.cert"
done
for line in cases/*_audit.txt; do
  says "$(cat "$line")" audit <"${line%_audit.txt}.run"
done
says 'upper 2' check <breach.cert
says 'refused line 1 bad-line' check <karate.txt
says 'unexplained reader 0 ask 2' audit <unexplained.run
says 'refused line 2 bad-line' audit <karate.kc

for text in *_dense.txt cases/*_dense.txt; do
  writes "${text%_dense.txt}.kc" "$text" dense
done

for text in *_orient.txt cases/*_orient.txt; do
  writes "${text%_orient.txt}.kc" "$text" orient 1
  writes "${text%_orient.txt}.kc" "$text" orient 3
done

# The most questions that a reader may have.
printf 'kcore 1\nvertices 5\nask 65536 0\n' | "$program" run 1 >"$out"
[ $? = 0 ] && { printf 'reader 0' && yes ' 0=0' | head -65536 | tr -d '\n' && echo; } | cmp -s - <(grep '^reader' "$out") || wrong "a reader with 65536 questions: another text"
# Its line has more than 65,536 bytes, as a line of a run text may.
"$program" audit <"$out" | grep -qx explained || wrong "a reader with 65536 questions isn't explained"
sed '/^reader 0/s/=0$/=1/' "$out" | "$program" audit | grep -qx 'unexplained reader 0 ask 65536' || wrong "a reader with 65536 questions: its last reply"

# Lists that are long enough to go to threads. In the first batch 24,576 vertices begin to rise at once, in the second
# 49,152 that have a neighbour above them. In `turns` a long batch cuts the vertices into ranges, 45 short ones make one
# range of them again, and so on. With one worker they stay one range. Then a strip of vertices comes in, and goes out
# again. In the strip each vertex is joined to the next two. Its lines come in descending order, so they are sorted.
awk 'function pairs(n, further) { for (v = 0; v < n; v++) print v, v + further }
  BEGIN { print "kcore 1\nvertices 73728\nbatch"; pairs(12288, 12288); print "end\nbatch"; pairs(24576, 24576); pairs(24576, 49152); print "end" }' >"$long"
awk 'function joins(sign, from, to, further) { print "batch"; for (v = from; v < to; v++) { print sign, v, v + further; print sign, v, v + further + 1 } print "end" }
  function turn(further) { joins("+", 0, 30000, further); joins("-", 3000, 6000, further); for (i = 0; i < 45; i++) joins("+", 700 * i, 700 * i + 3, further + 2); joins("-", 9000, 12000, further) }
  BEGIN { print "kcore 1\nvertices 40000"; turn(1); turn(5); turn(9); joins("+", 5000, 35000, 13) }' >"$turns"
awk 'function strip(sign) { print "batch"; for (v = 139997; v >= 0; v--) { print sign, v, v + 1; print sign, v, v + 2 } print "end" }
  BEGIN { print "kcore 1\nvertices 140000"; strip("+"); strip("-") }' >"$strip"
for input in "$long" "$turns" "$strip"; do
  "$program" run 1 <"$input" >"$err"
  [ $? = 0 ] && [ "$(tail -n 1 "$err")" = end ] || wrong "long lists: no text by run 1"
  for workers in 2 3 4 64; do
    "$program" run $workers <"$input" | cmp -s - "$err" || wrong "long lists: another text by run $workers than by run 1"
  done
done
# All edges of the strip are gone.
tail -n 140001 "$err" | grep -qvE '^(vertex [0-9]+ level 0 est 0 low 0 high 0 up 0 down 0|end)$' && wrong "long lists: an edge of the strip is left"

# The counts of a generated load: one line, the same for any number of workers. Nothing is read.
generates() {
  "$program" gen ${@:2} <. >"$out"
  exited=$?
  [ $exited = 0 ] && echo "$1" | cmp -s - "$out" || wrong "gen ${*:2}: exit number $exited, or another line than '$1'"
}
generates 'gen batches 1 refused 0 phases 1 groups 1 moves 4 edges 3 replies 40 top 1' 0 5 1 3 2
line=$("$program" gen 1 20000 4 20000 1)
generates "$line" 1 20000 4 20000 4

# Words that are no command: nothing is written.
for words in "" run "run 0" "run +1" "run 00000000001" "run x" "run 1 1" "exact 1" final "final 0" orient "orient 0" "orient x" "orient 1 1" "dense 1" "check 1" "audit 1" gen "gen 0 5 1 3" "gen 0 5 1 3 1 1" "gen 0 5 1 3 x" --help --version; do
  "$program" $words <path.kc >"$out" 2>"$err"
  exited=$?
  [ $exited = 2 ] && [ ! -s "$out" ] && [ ! -s "$err" ] || wrong "path.kc: '$words': exit number $exited"
done

# An input that can't be read: a folder. A graph for which there isn't enough memory.
for words in "run 1" "final 1" "orient 1" exact dense; do
  "$program" $words <. >"$out" 2>"$err"
  exited=$?
  [ $exited = 3 ] && [ ! -s "$out" ] && [ ! -s "$err" ] || wrong "$words of a folder: exit number $exited"
  (ulimit -v 20000 && printf 'kcore 1\nvertices 1048576\n' | "$program" $words >"$out" 2>"$err")
  exited=$?
  [ $exited = 5 ] && [ ! -s "$err" ] || wrong "$words with 20 MB for 1048576 vertices: exit number $exited"
done

# A document can't be a folder either.
for words in check audit; do
  "$program" $words <. >"$out" 2>"$err"
  exited=$?
  [ $exited = 3 ] && [ ! -s "$out" ] && [ ! -s "$err" ] || wrong "$words of a folder: exit number $exited"
done

# serves NUMBER INPUT WORDS..: the second program exits with this number.
serves() {
  "$kserve" "${@:3}" <"$2" >"$out" 2>"$err"
  exited=$?
  [ $exited = "$1" ] && [ ! -s "$err" ] || wrong "$2: exit number $exited of kserve ${*:3}"
}
# The schedule decides which updates share a batch. Those of each client stand in the order of its script.
for workers in 1 03; do
  serves 0 clients.ks $workers
  for client in "0 + 0 1,0 + 0 2" "1 + 1 2,1 + 2 3" "2 + 3 4,2 - 3 4"; do
    [ "$(grep "^take ${client%% *} " "$out" | cut -c6- | paste -sd,)" = "$client" ] || wrong "clients.ks: kserve $workers takes something else than '$client'"
  done
done
for input in cases/*.ks; do
  serves "$(grep -c '^refused' "${input%.ks}.txt")" "$input" 3
  cmp -s "$out" "${input%.ks}.txt" || wrong "$input: another text of kserve"
done
serves 1 karate.kc 2
echo 'refused line 2 header' | cmp -s - "$out" || wrong "karate.kc: another text of kserve"
for words in "" 0 x "1 1" "run 1" --help 99999999999; do
  serves 2 clients.ks $words
  [ ! -s "$out" ] || wrong "clients.ks: 'kserve $words' writes something"
done
serves 3 . 2
[ ! -s "$out" ] || wrong "kserve writes something of a folder"

# A pipe that stays open.
"$here/live.sh" "$program" || failed=1

# A text that can't be written: the device is full.
if [ -c /dev/full ]; then
  "$kserve" 2 <clients.ks >/dev/full 2>"$err"
  exited=$?
  [ $exited = 4 ] && [ ! -s "$err" ] || wrong "clients.ks: kserve to a full device: exit number $exited"
  for words in "run 1" "final 1" "orient 1" exact dense check audit "gen 0 5 1 3 2"; do
    "$program" $words <path.kc >/dev/full 2>"$err"
    exited=$?
    [ $exited = 4 ] && [ ! -s "$err" ] || wrong "path.kc: $words to a full device: exit number $exited"
  done
else
  echo "a full device isn't tried: there is no /dev/full" >&2
fi

# Each limit, and one past it.
"$here/limits.sh" "$program" "$kserve" || failed=1

# A run with one worker starts no thread. With four it starts as many each time. It starts fewer if some list or the
# lines of a batch aren't cut for them, or if there are fewer processors.
if command -v strace >/dev/null && strace -f -qq -o "$err" true 2>"$out"; then
  for threads in 1:0 4:97; do
    strace -f -qq -e trace=clone,clone3 -e signal=none -o "$err" "$program" run ${threads%:*} <"$strip" >"$out"
    started=$(grep -c 'clone3\?(.*CLONE_THREAD' "$err")
    if [ ${threads%:*} -gt "$(nproc)" ]; then
      echo "threads of run ${threads%:*} aren't counted: there are $(nproc) processors" >&2
      continue
    fi
    [ "$started" = ${threads#*:} ] || wrong "the strip: run ${threads%:*} starts $started threads and not ${threads#*:}"
  done
else
  echo "threads aren't counted: there is no strace that may trace" >&2
fi

if ! command -v python3 >/dev/null; then
  echo "examples/to_kcore.py, check.sql, corenesses and inputs in pieces aren't tried: there is no python3" >&2
  exit $failed
fi

# The same inputs in pieces, and closed pipes.
python3 -B "$here/pieces.py" "$program" "$kserve" || failed=1

# The levels after each phase of loads, beside a plain program.
python3 -B "$here/levels.py" "$program" || wrong "levels.py: other levels"

# The converter: each format, good and bad; and certificates in SQL beside `check`.
python3 -B "$here/test_to_kcore.py" 2>"$err" || { cat "$err"; wrong "test_to_kcore.py"; }
python3 -B "$here/test_check_sql.py" "$program" || wrong "test_check_sql.py"
for words in "" x 0 "5 3" "5 1 1"; do
  python3 -B thresholds.py $words >"$out" 2>"$err"
  exited=$?
  [ $exited = 2 ] && [ ! -s "$out" ] && [ "$(grep -c '^thresholds.py: ' "$err") $(wc -l <"$err")" = "1 1" ] || wrong "thresholds.py $words: exit number $exited"
done
python3 -B to_kcore.py --batch 20 <karate.snap 2>"$err" | cmp -s - karate_batches.kc || wrong "karate_batches.kc: another text"

# The counts of the text of `run` for a load are those that `gen` writes.
for load in "0 5 1 3" "1 300 7 500" "4294967295 17 20 40" "7 1 2 3" "5 2000 3 0"; do
  python3 "$here/generated.py" $load | "$program" run 2 | python3 "$here/generated.py" --counts >"$err"
  generates "$(cat "$err")" $load 3
done

# The coreness of each vertex of loads with insertions and deletions, beside a plain program.
for load in "3 40 6 120" "9 300 5 2000" "11 7 9 30"; do
  python3 "$here/generated.py" $load >"$err"
  "$program" exact <"$err" >"$out"
  python3 "$here/corenesses.py" "$err" <"$out" || wrong "a load of $load: another coreness"
done

# The replies to readers depend on how the threads run, and everything else is in readers.txt. The history explains each
# reply. If one reply is changed by 1, `audit` and explained.py name the same reply, or none.
for workers in 1 2 4 4 4; do
  "$program" run $workers <readers.kc >"$out"
  [ $? = 0 ] && sed -E '/^reader/s/=[01]/=L/g' "$out" | cmp -s - readers.txt || wrong "readers.kc: another text than in readers.txt"
  python3 "$here/explained.py" <"$out" 2>"$err" || wrong "readers.kc: $(cat "$err")"
  "$program" audit <"$out" | grep -qx explained || wrong "readers.kc: its text isn't explained"
  python3 "$here/explained.py" --changed "$program" <"$out" || wrong "readers.kc: a changed reply"
  sed '/^reader 0/s/0=. 4=.$/0=0 4=2/' "$out" | python3 "$here/explained.py" 2>"$err" && wrong "explained.py: a level that 4 never has"
done

# A python3 that has matplotlib, which may be another one than the first on the path.
python=
for one in python3 /usr/bin/python3; do
  if [ -z "$python" ] && "$one" -c 'import matplotlib' 2>"$err"; then python=$one; fi
done
if [ -z "$python" ]; then
  echo "examples/draw.py isn't tried: there is no matplotlib" >&2
  exit $failed
fi

# draws NUMBER WORDS..: the script exits with this number, and makes the picture only if that is 0. If not, it says why
# in one line.
draws() {
  rm -f "$out.svg"
  "$python" draw.py "${@:2}" "$out.svg" 2>"$err"
  exited=$?
  if [ -s "$out.svg" ]; then made=0; else made=1; fi
  [ $exited = "$1" ] && [ $made = "$1" ] || wrong "draw.py ${*:2}: exit number $exited"
  [ $exited = 0 ] || [ "$(grep -c '^draw.py: ' "$err") $(wc -l <"$err")" = "1 1" ] || wrong "draw.py ${*:2}: $(cat "$err")"
}
draws 0 run karate_batches.txt
draws 0 run refused.txt
draws 0 graph karate.kc karate.txt
draws 0 graph refused.kc refused.txt
draws 0 graph cases/ask_after_a_batch.kc cases/ask_after_a_batch.txt
draws 0 graph cases/batch_within_a_batch.kc cases/batch_within_a_batch.txt
draws 0 graph karate.kc karate_exact.txt
draws 0 run --exact karate_exact.txt karate_batches.txt
draws 0 heat karate_batches.txt
draws 0 readers cases/ask.txt
draws 0 readers --reader 1 cases/ask.txt
draws 1 readers --reader 2 cases/ask.txt
draws 1 readers karate.txt
draws 1 run karate.kc
draws 1 heat karate.kc
draws 1 heat path.kc
draws 1 graph karate.kc path.kc
draws 1 run --exact clique.txt karate_batches.txt
# Files of two graphs, with other numbers of vertices or with the same.
draws 1 graph karate.kc clique.txt
draws 1 graph clique.kc karate_exact.txt
draws 1 graph triangle.kc path.txt
draws 1 graph refused.kc counts.txt
draws 1 run --exact karate_exact.txt clique.txt
draws 1 run --exact triangle_exact.txt isolate.txt
"$python" draw.py run karate.txt "$out.gif" 2>"$err"
[ $? = 2 ] && grep -q '\.gif: a picture ends with \.svg, \.png or \.pdf$' "$err" || wrong "draw.py run karate.txt X.gif: $(cat "$err")"
# A circle for each of the 34 vertices, and as many numbers.
draws 0 graph karate.kc karate.txt
for v in $(seq 0 33); do
  grep -q "<!-- $v -->" "$out.svg" || wrong "draw.py graph karate.kc karate.txt: no number $v"
done
exit $failed
