#!/usr/bin/env bash
# Times `oa check`, `oa compile` and `oa replay` on texts of 16 operations with 64, 128 and 256 instructions in each method,
# less the time of the least text. In the one kind of text every second instruction branches, to and fro, so that each leads to
# each. In the other the generators have commits that need eight registers guarded and the wrap-ups exchanges that need three,
# so that their targets are up to ten times as long. A replay checks, compiles and verifies the text, and makes one step of one
# call (`fuel 1`). Five runs each; the least is taken. It needs the proved program (`./prove`).
set -eu
cd "$(dirname "$0")/.."
work=$(mktemp -d)
trap 'rm -rf "$work"' EXIT
. bench/least.sh

# A text with so many operations, and so many instructions in each method: an even number.
branches() {
  awk -v ops="$1" -v count="$2" '
    function method(last,   i, to) {
      for (i = 0; i + 2 < count; i += 2) {
        to = 2 * ((i * 37 + 11) % (count / 2))
        if (i % 4 == 0) { print "root n1 t"; print "ifless n0 n1 " to }
        else { print "root r0 h"; print "ifmarked r0 " to }
      }
      print "root n1 t"
      print last
    }
    BEGIN {
      print "oa 1"
      print "field next ref"
      print "nodes 0"
      print "root h ref null"
      print "root t num 0"
      for (op = 0; op < ops; op++) {
        print "op o" op " 1"
        print "gen"
        method("commit 0")
        print "wrap"
        method("returnnone")
      }
    }'
}

# The same, with exchanges: at least ten instructions.
guards() {
  awk -v ops="$1" -v count="$2" '
    function loads(   r) { for (r = 0; r < 8; r++) print "root r" r " h" }
    function generator(   i) {
      loads()
      for (i = 8; i + 2 < count; i += 2) {
        print "ifmarked r0 " i + 2
        print "commit 4"
        print "with r0 next r1 r2"
        print "with r3 next r4 r5"
        print "with r6 next r7 r0"
        print "with r1 next r2 r3"
      }
      print "null r0"
      print "commit 0"
    }
    function wrapup(   i) {
      loads()
      for (i = 8; i + 2 < count; i++) print "cas r" i % 6 " next r" i % 6 + 1 " r" i % 6 + 2 " " i + 1
      print "null r0"
      print "returnnone"
    }
    BEGIN {
      print "oa 1"
      print "field next ref"
      print "nodes 0"
      print "root h ref null"
      for (op = 0; op < ops; op++) {
        print "op o" op " 0"
        print "gen"
        generator()
        print "wrap"
        wrapup()
      }
    }'
}

# The text is to be accepted: otherwise what is timed is a refusal.
accepted() {
  ./oa check <"$1" >"$work/out" || { echo "refused: $(head -c 100 "$work/out")"; exit 1; }
}

# The text with one call, which is given up after one step.
begun() { cat "$1" && printf 'fuel 1\nscript 0\no0%s\n' "$2"; }

for kind in branches guards; do
  argument=
  [ $kind = guards ] || argument=' 1'
  "$kind" 1 $([ $kind = guards ] && echo 10 || echo 2) >"$work/least"
  accepted "$work/least"
  check=$(least check "$work/least")
  compile=$(least compile "$work/least")
  begun "$work/least" "$argument" >"$work/begun"
  replay=$(least replay "$work/begun")
  for count in 64 128 256; do
    "$kind" 16 "$count" >"$work/in"
    accepted "$work/in"
    checked=$(($(least check "$work/in") - check))
    compiled=$(($(least compile "$work/in") - compile))
    size=$(wc -c <"$work/out")
    begun "$work/in" "$argument" >"$work/begun"
    replayed=$(($(least replay "$work/begun") - replay))
    echo "$kind, $count instructions a method ($(wc -c <"$work/in") bytes, compiled $size): checked $checked," \
      "checked and compiled $compiled, checked, compiled and verified $replayed microseconds"
  done
done
