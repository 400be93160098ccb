#!/usr/bin/env bash
# Makes docs/map.md from crates.txt and the crates' own heads: a group for each line `## ..`, and in it for each crate the first sentence of its
# `//!` lines, up to a colon if six words or more stand before it. `docs/map.sh --check` only compares: its status is 1 if docs/map.md isn't what this
# script would make.
set -euo pipefail
cd "$(dirname "$0")/.."

# The first sentence of a crate's head, as one line.
head_of() { # CRATE
  local root=crates/$1/src/lib.rt
  [ -f "$root" ] || root=crates/$1/src/main.rt
  sed -n '/^\/\/!/!q; s/^\/\/! \{0,1\}//p' "$root" | tr '\n' ' ' |
    sed -E 's/  .*//; s/([^0-9A-Z.][.]) .*/\1/; s/ *$//; s/^(([^ :]+ ){5,}[^ :]+): .*/\1./'
}

make_map() {
  local line crate place
  cat <<'HEAD'
# Map

Made by `docs/map.sh`, from [crates.txt](../crates.txt) and the first lines of each crate: change those. A crate uses only crates above
it. A name leads to the crate's notes on its inside, if it has some.

`oa run`: `oa_main` of `oa_cli` reads the document's bytes (`command_input`, `oa_text`) and parses them (`documents`, `norm_parser`). `script_plans`
judges the text (`norm_check`), compiles it (`barrier_compiler`), and makes the setting. `word_runner` makes an arena: the words of the row in a
table, and a seat for each caller. `thread_runs` runs the callers on threads. Each step asks the caller's entry for an access (`core_entries` over
`caller_steps` and `phase_pools`), makes it in the table, and hands the word back. `document_runs` reports the final state, `oa_cli` says it, and
`script_driver` states what the report means. `oa epochs` leaves out the compiler: callers run the text as it is (`bare` of `target_code`).
HEAD
  while IFS= read -r line; do
    case $line in
      '## '*) printf '\n%s\n\n' "$line" ;;
      '#'* | '') ;;
      *)
        crate=${line%%[ :]*} place=src
        [ ! -f "crates/$crate/README.md" ] || place=README.md
        printf -- '- [%s](../crates/%s/%s): %s\n' "$crate" "$crate" "$place" "$(head_of "$crate")" | fold -s -w 148 | sed -E '2,$s/^/  /; s/ +$//'
        ;;
    esac
  done <crates.txt
}

if [ "${1-}" = --check ]; then
  diff docs/map.md <(make_map) >&2 || { echo "map: docs/map.md isn't what docs/map.sh makes of crates.txt and the crates' heads: run it" >&2; exit 1; }
  echo "map: docs/map.md is what docs/map.sh makes"
else
  make_map >docs/map.md.new
  mv docs/map.md.new docs/map.md
fi
