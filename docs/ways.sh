#!/usr/bin/env bash
# Counts how many files `rt ci` reads: before and after a library's proof it sums up the crate's files and those of each crate that its line in crates.txt
# names, and so on down, anew for each way that leads to a crate. So a crate that many ways lead to is read many times. `docs/ways.sh` writes the
# count for each library, most first, and in all; `docs/ways.sh LIMIT` only complains if there are more than so many in all.
set -euo pipefail
cd "$(dirname "$0")/.."
while read -r line; do
  name=${line%%:*}
  name=${name%% *}
  [ -f "crates/$name/src/main.rt" ] && kind=program || kind=library
  echo "$name $kind $(find "crates/$name" -path "crates/$name/out" -prune -o -type f -print | wc -l) ${line#*:}"
done < <(grep -v '^#' crates.txt | grep ':') | awk -v limit="${1:-0}" '
  { reads[$1] = $3; for (i = 4; i <= NF; i++) if ($i in reads) reads[$1] += reads[$i] }
  $2 == "library" { all += 2 * reads[$1]; if (!limit) print 2 * reads[$1], $1 | "sort -rn" }
  END {
    close("sort -rn")
    if (!limit) print all, "in all"
    else if (all > limit) { print "rt ci would read " all " files (docs/ways.sh): more than " limit; exit 1 }
  }'
