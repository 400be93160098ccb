#!/usr/bin/env bash
# Tries each mutant of the shared must-fail edits alone: `crates/CRATE/must-fail/shared_*.edit` have several, each under a line `# NAME`, and the gate, which
# tries such an edit in one check, tells only that it is rejected. `bench/edits.sh [CRATE..]` tries those of these crates or of all, in a copy of this checkout
# with its uncommitted files and what `rt` keeps in `out/`, in which each mutant has an edit of its own: `rt must-fail` first proves the crates below, as far
# as they aren't kept. It prints a line for each. The status is 1 if one isn't rejected.
set -euo pipefail
cd "$(dirname "$0")/.."
root=$PWD
[ $# -gt 0 ] || set -- $(ls crates/*/must-fail/shared_*.edit | cut -d/ -f2 | sort -u)
copy=$(mktemp -d)
trap 'rm -rf "$copy"' EXIT
find . -mindepth 1 -maxdepth 1 ! -name .git -exec cp -a {} "$copy"/ \;
cd "$copy"
git init -q
rejected=0 others=0
for crate; do
  folder=crates/$crate/must-fail
  rm -rf "$folder" && mkdir -p "$folder"
  awk '/^# / { name = $2; next } name { print > (folder "/" name ".edit") }' folder="$folder" "$root/$folder"/shared_*.edit
  said=$(rt must-fail "$crate" 2>&1) || true
  grep -F "must-fail $crate/" <<<"$said" || printf '%s\n' "$said" | tail -n 20 >&2
  wanted=$(find "$folder" -name '*.edit' | wc -l)
  got=$(grep -cF ': refused, as it must be' <<<"$said" || true)
  rejected=$((rejected + got)) others=$((others + wanted - got))
done
echo "$rejected rejected, $others not"
[ $others -eq 0 ]
