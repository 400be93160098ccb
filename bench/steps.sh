#!/usr/bin/env bash
# Counts the instructions of the processor that a step of a caller costs, with valgrind's callgrind: `oa replay` of 4,000 calls of the workload's keys on
# the hash set with 8 buckets and 16 slots, less a replay of the same document with `fuel 1`, which reads as much, makes one step and writes as many
# lines; divided by the steps, of which a schedule that asks for one more than there are tells the count. What is counted is the same each time.
# It prints that count, and then what the functions cost that cost most, by step. It needs valgrind and the proved program (`./prove`), or the name
# of another in `program`.
set -eu
cd "$(dirname "$0")/.."
work=$(mktemp -d)
trap 'rm -rf "$work"' EXIT
. bench/least.sh

calls=4000

awk -v rounds=$((calls / 4)) 'BEGIN {
  print "oa 1"; print "use set 8"; print "slots 16"; print "script 0"
  x = 1
  for (j = 0; j < rounds; j++) {
    k = x % 50; x = (75 * x + 74) % 65537
    print "insert " k; print "contains " k; print "remove " (j == 0 ? k : last); print "contains " (j == 0 ? k : last); last = k
  }
}' >"$work/in"
sed 's/^script 0$/fuel 1\n&/' "$work/in" >"$work/one"
{ cat "$work/in"; echo schedule; echo "op 0 $calls"; echo "step 0 1"; } >"$work/more"

# How many instructions a replay of a document takes; what its functions cost stays in a file beside the document.
instructions() { # DOCUMENT
  valgrind --tool=callgrind --callgrind-out-file="$work/calls" "$oa" replay <"$1" >"$work/out" 2>"$work/said" || true
  callgrind_annotate --threshold=100 "$work/calls" | sed -n '/file:function/,$s/^ *\([0-9,]*\) .*) *[^:]*:\(.*\) \[.*$/\1 \2/p' >"$1.costs"
  sed -n 's/^==[0-9]*== Collected : //p' "$work/said"
}

steps=$("$oa" replay <"$work/more" 2>/dev/null | sed -n 's/^shape 10 at //p') || true
[ -n "$steps" ] || { echo "not all calls ended"; exit 1; }
one=$(instructions "$work/one")
all=$(instructions "$work/in")
echo "$calls calls, $steps steps, $((all - one)) instructions, $(((all - one) / steps)) a step"
awk -v steps="$steps" '
  { cost = $1; gsub(",", "", cost); sub(/^[^ ]* /, "") }
  NR == FNR { least[$0] = cost; next }
  cost - least[$0] >= steps / 2 { printf "%6.1f %s\n", (cost - least[$0]) / steps, $0 }
' "$work/one.costs" "$work/in.costs" | sort -rn
