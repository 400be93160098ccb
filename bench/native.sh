#!/usr/bin/env bash
# Times `oa workload N C` beside a native set that makes the same calls, libcds's Michael hash set over hazard pointers.
# Needs g++ and Debian's libcds-dev. Usage: bench/native.sh [N [C]]; program=PATH for another program than the proved one.
set -eu
cd "$(dirname "$0")/.."
program=${program-crates/oa/out/oa}
count=${1-100000} callers=${2-8}
work=$(mktemp -d)
trap 'rm -rf "$work"' EXIT
g++ -O2 -std=c++17 -mcx16 bench/native.cc -o "$work/native" -lcds -pthread
"$work/native" "$count" "$callers"
least=
for _ in 1 2 3 4 5; do
  start=$(date +%s%N)
  "$program" workload "$count" "$callers" >"$work/said"
  took=$((($(date +%s%N) - start) / 1000))
  [ -n "$least" ] && [ "$least" -le "$took" ] || least=$took
done
cat "$work/said"
echo "oa workload $count $callers, both parts, the least of five runs: $((least / 1000)) ms"
