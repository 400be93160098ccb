#!/usr/bin/env bash
# How long `oax proper` takes: bench/proper.sh [EVENTS [NODES]], by default 100,000 events over 1,000 nodes that are reached at once. Two certificates are
# judged, each once: `walk`, whose calls go through the whole stack, and `churn`, whose calls pop a node and push another. Their runs are proper. It
# prints the events, the names in use at the end, and seconds. It needs the proved program (`./prove`), or the name of another in `program`.
cd "$(dirname "$0")/.." || exit 2
[ -n "${program:-}" ] || ./prove --is-ready oax || { echo "the proved program isn't there: run ./prove first" >&2; exit 2; }
program=${program:-crates/oax/out/oax} events=${1:-100000} nodes=${2:-1000}
room=$(mktemp -d) || exit 2
trap 'rm -rf "$room"' EXIT

certificate() { # KIND
  awk -v kind="$1" -v most="$events" -v nodes="$nodes" '
    function made(event) { print event; count++ }
    function access(name) { made("access 0 " name) }
    function push() { made("begin 0 push 7"); access(0); access(++names + 0); access(0); access(0); access(0) }
    function pop() { made("begin 0 pop"); access(0); access(0); access(0) }
    function walk(  i) { made("begin 0 walk"); access(0); for (i = 0; i < nodes; i++) access(0); access(0) }
    BEGIN {
      print "oa 1\nfield value num\nfield next ref\nnodes 0\nroot top ref null"
      print "op push 1\ngen\nroot r0 top\nnew r1\nput r1 value n0\nput r1 next r0\ncommit 1\nwithroot top r0 r1\nwrap\nreturnnone"
      print "op pop 0\ngen\nroot r0 top\nload r1 r0 next\ncommit 1\nwithroot top r0 r1 retire r0\nwrap\nreturnnone"
      print "op walk 0\ngen\nnull r2\nroot r0 top\nifeq r0 r2 5\nload r0 r0 next\njump 2\ncommit 0\nwrap\nreturnnone"
      print "script 0\npush 7\nschedule\nevents"
      while (names < nodes) push()
      while (count < most) if (kind == "walk") walk(); else { pop(); push() }
      print "replies"
      print count, names > "/dev/stderr"
    }'
}

for kind in walk churn; do
  certificate $kind >"$room/$kind" 2>"$room/size"
  began=$(date +%s.%N)
  answer=$("$program" proper <"$room/$kind")
  ended=$(date +%s.%N)
  read -r count names <"$room/size"
  printf '%s: %d events, %d names: %s, %.1f s\n' $kind "$count" "$names" "$answer" "$(awk "BEGIN { print $ended - $began }")"
done
