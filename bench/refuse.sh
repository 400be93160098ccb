#!/usr/bin/env bash
# Refuses each request for memory of the program in turn, one a run: of each command on the list, the queue, a document of eight callers and one of
# 100 KB, and of workloads of two callers and of eight. Such a run has to end with the line `memory` and its status, or, if what was refused isn't
# needed (the buffer of the output, say), as the run does in which nothing is refused. With a standard output that can't be written it has to end with
# the status 8; that is tried on the list, the queue and the workloads. Nothing may be left allocated at the end. It writes for each document and
# command how many requests there were, and how the runs ended. `bench/refuse.sh EVERY DOCUMENT..` refuses each EVERY-th request alone, of some of
# `list`, `queue`, `workload`, `eight` and `100KB`. It needs gcc and the proved program (`./prove`), or the path of another in `program`.
set -eu
[ -z "${program:-}" ] || program=$(realpath "$program")
cd "$(dirname "$0")/.."
[ -n "${program:-}" ] || ./prove --is-ready oa || { echo "the proved program isn't there: run ./prove first" >&2; exit 2; }
program=${program:-crates/oa/out/oa}
work=$(mktemp -d)
trap 'rm -rf "$work"' EXIT
gcc -O2 -Wall -Wextra -shared -fPIC -o "$work/refuse.so" bench/refuse.c
gcc -O2 -Wall -Wextra -o "$work/refuse_each" bench/refuse_each.c

cp examples/recycle.oa "$work/list"
printf '%s\n' 'oa 1' 'use queue' 'slots 3' 'script 0' 'enqueue 4' 'enqueue 5' dequeue 'enqueue 6' dequeue dequeue dequeue >"$work/queue"
printf '%s\n' 'no document: a workload leaves it unread' >"$work/workload"
awk 'BEGIN { print "oa 1"; print "use list"; print "script 0"; for (i = 0; i < 6000; i++) print "contains " 1000000 + i }' >"$work/100KB"
# No caller needs another's keys, and there are slots for all nodes, so that the answers don't hang on who comes first.
awk 'BEGIN {
  print "oa 1"; print "use set 8"; print "slots 200"
  for (c = 0; c < 8; c++) { print "script " c; for (i = 0; i < 5; i++) { print "insert " 8 * i + c; print "contains " 8 * i + c; print "remove " 8 * i + c } }
}' >"$work/eight"

every=${1-1} failures=0 started=$SECONDS
shift || true
[ $# -gt 0 ] || set -- list queue workload eight 100KB
for document in "$@"; do
  commands=(run epochs replay check show compile upgrade 'judge make') unwritten=1
  [ "$document" != workload ] || commands=('workload 8 2' 'workload 8 8')
  case $document in eight | 100KB) unwritten=0 ;; esac
  for command in "${commands[@]}"; do
    read -ra words <<<"$command"
    "$work/refuse_each" "$program" "$work/refuse.so" "$every" $unwritten "$document" "$work/$document" "${words[@]}" || failures=$((failures + 1))
  done
done
echo "in $((SECONDS - started)) seconds; of $failures commands something else came"
[ $failures -eq 0 ]
