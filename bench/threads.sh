#!/usr/bin/env bash
# Times `oa run` with 1, 2, 4 and 8 callers on the hash set with 8 buckets and on the list. The callers share 32,000 rounds evenly; in
# each a caller inserts one of 32 keys, asks for it and removes it. A document has no room for more. From the time of a run that of
# `oa show` on the same document is taken off, which reads it and writes it too. Five runs each; the least is taken. It writes the
# calls a second of all callers together, and their ratio to those of one caller on plain words, which is `oa replay` of the same document of one
# caller. A schedule that asks for one step more than there are tells how many steps that takes, and so the steps a second. Then eight callers share 32,000
# pairs of an enqueue, which claims, and a dequeue, which retires, on queues of 64, 512 and 4,096 slots: all meet at the head of the chain of ready slots.
# It needs the proved program (`./prove`), or the name of another in `program`.
set -eu
cd "$(dirname "$0")/.."
work=$(mktemp -d)
trap 'rm -rf "$work"' EXIT
. bench/least.sh
total=32000

# A document of a text with so many callers.
document() { # TEXT CALLERS
  awk -v text="$1" -v callers="$2" -v rounds="$rounds" 'BEGIN {
    print "oa 1"
    print "use " text
    print "slots 400"
    for (c = 0; c < callers; c++) {
      print "script " c
      for (i = 0; i < rounds; i++) {
        key = (7 * i + 4 * c) % 32
        print "insert " key
        print "contains " key
        print "remove " key
      }
    }
  }'
}

for text in "set 8" list; do
  rounds=$total
  document "$text" 1 >"$work/in"
  steps=$({ cat "$work/in"; echo schedule; echo "op 0 $((3 * rounds))"; echo "step 0 1"; } | "$oa" replay 2>/dev/null | sed -n 's/^shape 10 at //p')
  spent=$(($(least replay "$work/in") - $(least show "$work/in")))
  alone=$((3 * rounds * 1000000 / (spent > 0 ? spent : 1)))
  echo "$text, plain words: $alone calls and $((steps * 1000 / (spent > 0 ? spent : 1))) thousand steps a second"
  for callers in 1 2 4 8; do
    rounds=$((total / callers))
    document "$text" "$callers" >"$work/in"
    "$oa" run <"$work/in" >"$work/out" || true
    [ "$(tail -n 1 "$work/out" | cut -d ' ' -f 1-4)" = "replies $((3 * rounds * callers)) short 0" ] || { echo "not all calls ended: $(tail -n 1 "$work/out")"; exit 1; }
    spent=$(($(least run "$work/in") - $(least show "$work/in")))
    rate=$((3 * rounds * callers * 1000000 / (spent > 0 ? spent : 1)))
    echo "$text, $callers callers: $rate calls and about $((rate * steps / (3 * total) / 1000)) thousand steps a second, $((100 * rate / alone)) percent of plain words"
  done
done

for slots in 64 512 4096; do
  awk -v slots="$slots" -v pairs="$((total / 8))" 'BEGIN {
    print "oa 1"; print "use queue"; print "slots " slots
    for (c = 0; c < 8; c++) {
      print "script " c
      for (i = 0; i < pairs; i++) { print "enqueue " i; print "dequeue" }
    }
  }' >"$work/in"
  counts=$("$oa" run <"$work/in" | tail -n 1)
  [ "$(cut -d ' ' -f 1-4 <<<"$counts")" = "replies $((2 * total)) short 0" ] || { echo "not all calls ended: $counts"; exit 1; }
  spent=$(($(least run "$work/in") - $(least show "$work/in")))
  echo "queue, $slots slots, 8 callers that claim and retire: $((2 * total * 1000000 / (spent > 0 ? spent : 1))) calls a second, $(cut -d ' ' -f 5- <<<"$counts")"
done
