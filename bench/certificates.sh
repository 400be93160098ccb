#!/usr/bin/env bash
# Times certificates of a set with 8 buckets and 1,000 live keys: `oa judge make` beside `oa replay` of the same document, with their greatest memory, and
# `oa judge check` of certificates with 1, 2, 4 and 8 times as many events. The larger ones repeat the lookups of the least, which change nothing. What
# reading alone takes is the time of a certificate whose first event is spoilt, so that nothing is judged. Processor time, the least of five runs. It
# needs the proved program (`./prove`), or the name of another in `program`.
set -eu
cd "$(dirname "$0")/.."
work=$(mktemp -d)
trap 'rm -rf "$work"' EXIT
. bench/least.sh

keys=1000 lookups=${1:-1000}

awk -v keys=$keys -v lookups="$lookups" 'BEGIN {
  print "oa 1"; print "use set 8"; print "slots " keys + 100; print "script 0"
  for (i = 0; i < keys; i++) print "insert " (i * 617) % keys
  for (i = 0; i < lookups; i++) print "contains " (i * 389) % keys
}' >"$work/in"

# The least processor time of five runs of a command on an input, in milliseconds.
spent() { # COMMAND INPUT
  local TIMEFORMAT='%U %S'
  for _ in 1 2 3 4 5; do
    { time "$oa" $1 <"$2" >"$work/out" 2>/dev/null || true; } 2>&1
  done | awk '{ t = int(1000 * ($1 + $2) + 0.5); if (NR == 1 || t < best) best = t } END { print best }'
}

# The most memory that a command takes on an input, in kibibytes.
memory() { # COMMAND INPUT
  /usr/bin/time -f %M -o "$work/memory" "$oa" $1 <"$2" >/dev/null 2>&1 || true
  tail -n 1 "$work/memory"
}

"$oa" judge make <"$work/in" >"$work/least"
events() { awk '/^replies$/ { exit } on { n++ } /^events$/ { on = 1 } END { print n }' "$1"; }
replay=$(spent replay "$work/in") make=$(spent 'judge make' "$work/in")
count=$(events "$work/least")
echo "replay $replay, judge make $make ms; $count events;" \
  "$(($(memory 'judge make' "$work/in") * 1024 - $(memory replay "$work/in") * 1024)) bytes more"

# The same certificate with the lookups so many times.
repeated() { # TIMES
  awk -v keys=$keys -v times="$1" '
    function copies(n,   t, i) { for (t = 0; t < times; t++) for (i = 1; i <= n; i++) print kept[i] }
    /^schedule$/ { copies(n); n = 0; part = "calls" }
    /^events$/ { part = "events"; seen = 0; print; next }
    /^replies$/ { copies(n); n = 0; part = "replies"; seen = 0; print; next }
    /^script 0$/ { part = "script"; seen = 0; print; next }
    part == "script" { if (++seen > keys) kept[++n] = $0; else print; next }
    part == "events" { if (/^begin/) seen++; if (seen > keys) kept[++n] = $0; else print; next }
    part == "replies" { if (++seen > keys) kept[++n] = $0; else print; next }
    { print }
    END { copies(n) }' "$work/least"
}

for times in 1 2 4 8; do
  repeated $times >"$work/certificate"
  awk 'done { print; next } { print } /^events$/ { print "restart 0"; done = 1 }' "$work/certificate" >"$work/spoilt"
  [ "$("$oa" judge check <"$work/certificate" 2>/dev/null)" = accepted ] || { echo "not accepted"; exit 1; }
  read=$(spent 'judge check' "$work/spoilt") whole=$(spent 'judge check' "$work/certificate")
  echo "$(events "$work/certificate") events, $(wc -c <"$work/certificate") bytes: read $read, judged $((whole - read)) ms"
done
