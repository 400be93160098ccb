#!/usr/bin/env bash
# Runs the program on documents that are made from the examples, from certificates of these and from the texts and documents of reader_rows' rows by
# one to four small changes each, with one of the commands on documents and certificates, and looks whether it ends with a status of docs/statuses.md,
# with the line on standard output and a sentence on standard error as that status has them. One call in sixteen is a `workload`, with numbers and
# words that may be wrong; it leaves its document unread. `bench/fuzz.sh COUNT SEED` makes COUNT documents, a million if there is no number; a seed
# gives the same documents again. With `certificates=yes` in the environment it makes them of certificates alone, and `judge check` judges each. It
# writes how often which status came, and keeps a document that shows anything else, or that had to be stopped, as
# fuzz-NUMBER.oa where it is called. It needs gcc and the proved program (`./prove`), or the path of another in `program`.
set -eu
top=$(cd "$(dirname "$0")/.." && pwd)
[ -n "${program:-}" ] || "$top/prove" --is-ready oa || { echo "the proved program isn't there: run ./prove first" >&2; exit 2; }
work=$(mktemp -d)
trap 'rm -rf "$work"' EXIT
gcc -O2 -Wall -Wextra -o "$work/fuzz" "$top/bench/fuzz.c"

# The rows spell a newline as `|`, and the lines that they share as a name in braces.
awk -v into="$work" '
  $1 == "lines" { name = $2; sub(/^lines [^ ]* /, ""); shared[name] = $0; next }
  $1 == "text" || $1 == "document" {
    sub(/^[a-z]* ?/, "")
    while (match($0, /\{[a-z_]*\}/)) $0 = substr($0, 1, RSTART - 1) shared[substr($0, RSTART + 1, RLENGTH - 2)] substr($0, RSTART + RLENGTH)
    gsub(/\|/, "\n")
    printf "%s", $0 > (into "/row" ++rows)
    close(into "/row" rows)
  }' "$top/crates/reader_rows/stdin"

program=${program:-$top/crates/oa/out/oa}
good=("$top"/examples/*.oa)
for document in "$top"/examples/*.oa; do
  made=$work/made_$(basename "$document")
  "$program" judge make <"$document" >"$made" 2>/dev/null && good+=("$made") || true
done
if [ -n "${certificates:-}" ]; then
  good=("$work"/made_*)
  rm -f "$work"/row*
  export certificates
  "$work/fuzz" "$program" "${1-100000}" "${2-1}" ${#good[@]} "${good[@]}"
  exit
fi
"$work/fuzz" "$program" "${1-1000000}" "${2-1}" ${#good[@]} "${good[@]}" "$work"/row*
