#!/usr/bin/env bash
# Times the steps of one caller on plain words, by `oa replay`: on the hash set with 8 buckets; on lists of 1, 10 and 100 nodes; on queues of at most
# one value and 8, 64, 512 and 4,096 slots, where each enqueue claims, each slot is used again and again, and a sweep frees nearly all of them; and on
# queues that leave two of as many slots free: each third claim finds no slot ready, and its sweep goes through the whole row and makes three ready.
# How many steps a document takes is told by a schedule that asks for one more than there are. From the time of a replay that of the same
# document with `fuel 1` is taken off, which reads it, makes one step, and writes as many lines. Times are the processor's, the least of
# five runs each, so that other programs on the machine count as far as they slow a processor down. It needs the proved program (`./prove`),
# or the name of another in `program`.
set -eu
cd "$(dirname "$0")/.."
work=$(mktemp -d)
trap 'rm -rf "$work"' EXIT
. bench/least.sh

# The least time of five replays of an input, in microseconds.
least_of() { # INPUT
  local best= spent TIMEFORMAT=%U
  for _ in 1 2 3 4 5; do
    spent=$({ time "$oa" replay <"$1" >"$work/out" 2>"$work/said" || true; } 2>&1)
    spent=$((10#${spent/./} * 1000))
    if [ -z "$best" ] || [ "$spent" -lt "$best" ]; then best=$spent; fi
  done
  echo "$best"
}

# The steps that the document in the file `in` takes, all of whose calls end.
steps() {
  { cat "$work/in"; echo schedule; echo "op 0 $1"; echo "step 0 1"; } >"$work/more"
  "$oa" replay <"$work/more" 2>/dev/null | sed -n 's/^shape 10 at //p'
}

# Tells what a replay of the document costs.
tell() { # WHAT CALLS
  local count spent claims
  count=$(steps "$2")
  [ -n "$count" ] || { echo "$1: not all calls ended"; exit 1; }
  sed 's/^script 0$/fuel 1\n&/' "$work/in" >"$work/one"
  spent=$(($(least_of "$work/in") - $(least_of "$work/one")))
  claims=$("$oa" replay <"$work/in" | tail -n 1 | cut -d ' ' -f 8)
  echo "$1: $count steps, $claims claims, $spent microseconds, $((1000 * spent / count)) ns a step"
}

awk 'BEGIN {
  print "oa 1"; print "use set 8"; print "slots 16"; print "script 0"
  x = 1
  for (j = 0; j < 22500; j++) {
    k = x % 50; x = (75 * x + 74) % 65537
    print "insert " k; print "contains " k; print "remove " (j == 0 ? k : last); print "contains " (j == 0 ? k : last); last = k
  }
}' >"$work/in"
tell "set, keys of the workload" 90000

for nodes in 1 10 100; do
  awk -v nodes="$nodes" 'BEGIN {
    print "oa 1"; print "use list"; print "slots 200"; print "script 0"
    for (i = 1; i <= nodes; i++) print "insert " i
    for (i = 0; i < 1000000 / (4 * nodes + 8); i++) print "contains " nodes
  }' >"$work/in"
  tell "list of $nodes, its last key asked for" "$(grep -c '^insert\|^contains' "$work/in")"
done

for slots in 8 64 512 4096; do
  awk -v slots="$slots" 'BEGIN {
    print "oa 1"; print "use queue"; print "slots " slots; print "script 0"
    for (i = 0; i < 8000; i++) { print "enqueue " i; print "dequeue" }
  }' >"$work/in"
  tell "queue of at most one value, $slots slots" 16000
done

for slots in 8 64 512 4096; do
  awk -v slots="$slots" 'BEGIN {
    print "oa 1"; print "use queue"; print "slots " slots; print "script 0"
    for (i = 3; i < slots; i++) print "enqueue " i
    for (i = 0; i < 6000000 / (10 * slots + 50); i++) { print "dequeue"; print "enqueue " i }
  }' >"$work/in"
  tell "queue that leaves two of $slots slots free" "$(grep -c queue "$work/in" | awk '{ print $1 - 1 }')"
done
