#!/usr/bin/env bash
# Times the C11 that tools/oa2c makes of the shipped set beside libcds's Michael hash set over hazard pointers: the same 64 buckets, keys, threads and
# mix of calls. Needs gcc, g++ and Debian's libcds-dev, and takes some ten seconds. Usage: bench/libcds.sh [CALLS [SPARE]], where CALLS are those of a
# run, and SPARE is how many nodes a thread may leave retired before it looks for what is free; program=PATH for another program than ./oa.
#
# Writes millions of calls a second of processor time, so that other work on the machine disturbs little: medians of five runs, taken in turns. The
# status is 1 if the set at the end of a run isn't what the answers say.
set -eu
cd "$(dirname "$0")/.."
program=${program-./oa}
calls=${1-400000} spare=${2-1024}
work=$(mktemp -d)
trap 'rm -rf "$work"' EXIT
printf 'oa 1\nuse set 64\n' | "$program" compile | tools/oa2c set >"$work/set.h"
gcc -O2 -DNDEBUG -std=gnu11 -Wall -Wextra -pthread -I tools -I "$work" bench/libcds_oa.c -o "$work/oa"
g++ -O2 -DNDEBUG -std=c++17 -mcx16 -Wall -Wextra bench/libcds_hp.cc -o "$work/libcds" -lcds -pthread

median() { sort -n | sed -n 3p; }

echo "load $(cut -d' ' -f1-3 /proc/loadavg), $(nproc) processors"
for threads in 1 2 4; do
  for keys in 64 1024; do
    for asked in 50 90; do
      rm -f "$work"/*.said
      for _ in 1 2 3 4 5; do
        for set in oa libcds; do "$work/$set" "$threads" "$keys" "$calls" "$asked" "$spare" >>"$work/$set.said"; done
      done
      echo "threads $threads keys $keys contains $asked%: oa $(median <"$work/oa.said") libcds $(median <"$work/libcds.said")"
    done
  done
done
