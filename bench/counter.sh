#!/usr/bin/env bash
# Times `oa run` on documents of the counter with 25,000 and with 100,000 calls of `add 5`, less the time
# of a document with no call. Five runs each; the least is taken. It needs the proved program (`./prove`).
set -eu
cd "$(dirname "$0")/.."
work=$(mktemp -d)
trap 'rm -rf "$work"' EXIT
. bench/least.sh

document() {
  sed '/^script 0$/q' examples/counter.oa
  for ((i = 0; i < $1; i++)); do echo 'add 5'; done
}

for calls in 0 25000 100000; do document "$calls" >"$work/$calls"; done
empty=$(least run "$work/0")
for calls in 25000 100000; do
  echo "$calls calls: $(($(least run "$work/$calls") - empty)) microseconds"
done
