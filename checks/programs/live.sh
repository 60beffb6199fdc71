#!/usr/bin/env bash
# Runs in the gate, from check.sh. Feeds kcore over a pipe that stays open: the lines of each batch have to come
# before the next batch is sent. Silent if all is well.
#     checks/programs/live.sh KCORE
set -u
program=$(realpath "$1") || exit 1
failed=0
wrong() { echo "checks/programs/live.sh: $1"; failed=1; }

# starts WORDS..: the program runs, reads what `sends` sends, and writes what `writes` reads.
starts() {
  words=$*
  coproc RUN { exec "$program" "$@" 2>&1; }
  pid=$RUN_PID
  exec {from}<&"${RUN[0]}" {to}>&"${RUN[1]}" {RUN[0]}<&- {RUN[1]}>&-
}

# sends LINE..: these lines are sent, and the pipe stays open.
sends() { printf '%s\n' "$@" >&"$to"; }

# writes LINE..: these are the next lines that the program writes, each within 20 seconds.
writes() {
  for wanted in "$@"; do
    IFS= read -r -t 20 -u "$from" line || { wrong "$words: no line '$wanted' while the input is open"; line=; return 1; }
    [ "$line" = "$wanted" ] || { wrong "$words: '$line' instead of '$wanted'"; return 1; }
  done
}

# waits: the program writes nothing more, and hasn't ended.
waits() {
  IFS= read -r -t 0.2 -u "$from" line
  # More than 128: the time is over, and neither a line nor the end has come.
  [ $? -gt 128 ] || wrong "$words: '$line', or the end, while nothing is sent"
}

# ends NUMBER: the program exits with this number, once its input is closed.
ends() {
  exec {to}>&-
  wait "$pid"
  exited=$?
  [ $exited = "$1" ] || wrong "$words: exit number $exited"
  exec {from}<&-
}

# added NUMBER, removed NUMBER: the lines of batch NUMBER, which puts the edge 0-1 in or takes it out.
added() { writes "batch $1 loops 0 repeats 0 idle 0 removed 0 added 1" "phase $1 insert quiet 0" "group $1 0 0:1 1:1"; }
removed() { writes "batch $1 loops 0 repeats 0 idle 0 removed 1 added 0" "phase $1 delete quiet 0" "group $1 0 0:0 1:0"; }

# 1,000 batches, each sent when the lines of the one before were read. A writer that waits within a batch gets nothing
# of it.
for workers in 1 2; do
  starts run $workers
  sends 'kcore 1' 'vertices 2' 'batch' '0 1'
  writes 'kcore-run 1' 'vertices 2' && waits
  sends 'end'
  added 1
  for ((number = 2; number <= 1000 && !failed; number += 2)); do
    sends 'batch' '- 0 1' 'end' && removed $number && sends 'batch' '0 1' 'end' && added $((number + 1))
  done
  waits
  sends 'batch' '0 2' 'end'
  writes "batch $((number)) refused line $((3 * number + 1)) bad-vertex"
  exec {to}>&-
  writes 'vertex 0 level 1 est 2 low 1 high 2 up 1 down 1' 'vertex 1 level 1 est 2 low 1 high 2 up 1 down 1' end
  wait "$pid"
  exited=$?
  [ $exited = 1 ] || wrong "$words: exit number $exited"
  exec {from}<&-
done

# The commands that write a document at the end write a note of each refused batch as soon as it is refused.
for command in "final 1" "orient 1" exact dense; do
  starts $command
  sends 'kcore 1' 'vertices 2' 'batch' '0 2' 'end' 'batch' '0 1' 'end'
  IFS= read -r -t 20 -u "$from" line
  [[ $line == *"batch 1 refused line 4 bad-vertex"* ]] || wrong "$words: '$line' of a batch that is refused"
  waits
  exec {to}>&-
  cat <&"$from" | tail -1 | grep -q . || wrong "$words: no document"
  wait "$pid"
  exited=$?
  [ $exited = 1 ] || wrong "$words: exit number $exited"
  exec {from}<&-
done

# The other end of the output is closed: the lines of the next batch can't be written, and the program ends though its
# input stays open.
starts run 1
sends 'kcore 1' 'vertices 2' 'batch' '0 1' 'end'
writes 'kcore-run 1' 'vertices 2' && added 1
exec {from}<&-
sends 'batch' '- 0 1' 'end'
wait "$pid"
exited=$?
[ $exited = 4 ] || wrong "$words: exit number $exited where nobody reads"
exec {to}>&-
exit $failed
