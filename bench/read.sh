#!/usr/bin/env bash
# Times `oa show` on texts up to the greatest, on comments up to a document's greatest length, and on up to 100,000 calls,
# each at four sizes, less the time of an empty input. Five runs each; the least is taken. It needs the proved program
# (`./prove`).
set -eu
cd "$(dirname "$0")/.."
work=$(mktemp -d)
trap 'rm -rf "$work"' EXIT
. bench/least.sh

# A text with so many operations of 256 instructions in each method, 4 fields, 256 nodes and 256 roots. Each instruction is
# a commit of 4 exchanges on the last root.
text() {
  awk -v ops="$1" '
    function method() {
      for (i = 0; i < 256; i++) {
        print "commit 4"
        for (e = 0; e < 4; e++) print "withroot a255 n0 n1"
      }
    }
    BEGIN {
      print "oa 1"
      for (f = 0; f < 4; f++) print "field f" f " num"
      print "nodes 256"
      for (j = 0; j < 256; j++) print "node 18446744073709551615 1 2 3"
      for (x = 0; x < 256; x++) print "root a" x " num 0"
      for (op = 0; op < ops; op++) {
        print "op o" op " 4"
        print "gen"
        method()
        print "wrap"
        method()
      }
    }'
}

# So many kibibytes of comments of 200 bytes, and a text.
long_comments() {
  awk -v bytes="$(($1 * 1024 - 14))" 'BEGIN { c = "#"; while (length(c) < 200) c = c "-"; for (n = 201; n <= bytes; n += 201) print c; print "oa 1"; print "use list" }'
}

# So many kibibytes of comments of one byte, and a text.
short_comments() {
  awk -v bytes="$(($1 * 1024 - 14))" 'BEGIN { for (n = 2; n <= bytes; n += 2) print "#"; print "oa 1"; print "use list" }'
}

# A document with so many calls.
calls() {
  awk -v calls="$1" 'BEGIN { print "oa 1"; print "use list"; print "script 0"; for (n = 0; n < calls; n++) print "insert " n % 10 }'
}

# The input is to be a document: otherwise what is timed is a refusal.
measure() {
  "$1" "$2" >"$work/in"
  ./oa show <"$work/in" >"$work/out" || { echo "$1 $2: refused: $(head -c 100 "$work/out")"; exit 1; }
  echo "$1 $2 ($(wc -c <"$work/in") bytes): $(($(least show "$work/in") - empty)) microseconds"
}

empty=$(least show /dev/null)
for ops in 4 8 12 16; do measure text "$ops"; done
for size in 256 512 768 1024; do measure long_comments "$size"; done
for size in 256 512 768 1024; do measure short_comments "$size"; done
for count in 25000 50000 75000 100000; do measure calls "$count"; done
