#!/usr/bin/env bash
# Times `oa replay` and `oa run` of one caller on 90,000 calls of the hash set with 8 buckets and 16 slots, and `oa run` on 500,000 calls of an
# operation that does nothing, whose report has as many lines: a document has no room for more. Nothing is taken off. Five runs each; the least is
# taken. It needs the proved program (`./prove`).
set -eu
cd "$(dirname "$0")/.."
work=$(mktemp -d)
trap 'rm -rf "$work"' EXIT
. bench/least.sh

awk 'BEGIN {
  print "oa 1"; print "use set 8"; print "slots 16"; print "script 0"
  x = 1
  for (j = 0; j < 22500; j++) {
    k = x % 50; x = (75 * x + 74) % 65537
    print "insert " k; print "contains " k; print "remove " (j == 0 ? k : last); print "contains " (j == 0 ? k : last); last = k
  }
}' >"$work/set"
awk 'BEGIN {
  print "oa 1"; print "field pad num"; print "nodes 0"; print "root total num 0"
  print "op n 0"; print "gen"; print "commit 0"; print "wrap"; print "returnnone"
  for (c = 0; c < 5; c++) { print "script " c; for (i = 0; i < 100000; i++) print "n" }
}' >"$work/nothing"

for command in replay run; do
  echo "90,000 set calls, $command: $(least $command "$work/set") microseconds"
done
echo "500,000 lines, run: $(least run "$work/nothing") microseconds"
