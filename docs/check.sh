#!/usr/bin/env bash
# Checks that what the documents name is there: each link leads to a file, and to a heading if it names one; each path in backticks exists; each
# other name in backticks is a word of the sources. docs/PROVING.md quotes the prover, and docs/tutorial.md names what it has its reader write: of
# these two only links and paths are looked up. Then README's quotation of the headline is compared with the definition's comment, and words are
# counted: README has at most 1,500, and with CONTRIBUTING and docs/*.md at most 37,000. The status is 1 if anything is missing, differs or is too
# long, and a line on standard output says what and where.
set -uo pipefail
shopt -s nullglob
cd "$(dirname "$0")/.." || exit 2

documents=(README.md CONTRIBUTING.md CHANGELOG.md docs/*.md bench/README.md examples/README.md tools/README.md crates/*/README.md)
missing=0 looked=0
declare -A words files

sources() {
  find . \( -name .git -o -name out \) -prune -o -type f "$@" -print
}

complain() { # FILE LINE WHAT
  missing=$((missing + 1))
  echo "$1:$2: $3"
}

# Whether a path is there: from the top, from the document's folder, in some crate's folder, or as `CRATE/FILE`, which is one of its specs/ or src/.
is_there() { # FOLDER PATH
  local found=() path=${2#./} rest
  rest=${path#*/}
  found=($path $1/$path crates/$path crates/$path.antt crates/${path%%/*}/specs/$rest.antt crates/${path%%/*}/src/$rest crates/*/$path)
  for path in "${found[@]}"; do [ ! -e "$path" ] || return 0; done
  return 1
}

# The anchors of a document's headings, as the usual renderers make them.
anchors_of() { # FILE
  sed -n 's/^##* //p' "$1" | tr '[:upper:]' '[:lower:]' | sed 's/[^a-z0-9 _-]//g; s/ /-/g'
}

check_link() { # FILE LINE TARGET
  local path=${3%%#*} folder
  case $3 in http:* | https:*) return ;; esac
  folder=$(dirname "$1")
  [ -n "$path" ] && path=$folder/$path || path=$1
  [ -e "$path" ] || { complain "$1" "$2" "the link $3 leads to no file"; return; }
  [[ $3 != *'#'* ]] || anchors_of "$path" | grep -qxF -- "${3#*#}" || complain "$1" "$2" "the link $3 leads to no heading"
}

check_name() { # FILE LINE NAME
  local part
  for part in ${3//[.:]/ }; do
    [ -n "${words[$part]-}" ] || complain "$1" "$2" "$3 is no name of the sources"
  done
}

check_quoted() { # FILE LINE TEXT
  local token=${3%'()'} own=
  case $1 in docs/PROVING.md | docs/tutorial.md) own=yes ;; esac
  [[ $token != *[' *[]{}()<>|$…']* && $token != *..* && $token != -* ]] || return
  case $token in
    *[A-Z][A-Z][A-Z]*.* | *[A-Z][A-Z][A-Z]*/* | */*[A-Z][A-Z][A-Z]* | /* | out/* | *::*/*) ;;
    */*) is_there "$(dirname "$1")" "$token" || complain "$1" "$2" "there is no path $token" ;;
    *.antt | *.rt | *.md | *.oa | *.sh | *.py | *.edit | *.txt) [ -n "$own${files[$token]-}" ] || complain "$1" "$2" "there is no file $token" ;;
    *) [[ -n $own || ! $token =~ ^[A-Za-z_][A-Za-z0-9_.:]*$ ]] || check_name "$1" "$2" "$token" ;;
  esac
}

while read -r word; do words[$word]=1; done < <(
  sources \( -name '*.rt' -o -name '*.antt' -o -name '*.edit' -o -name '*.oa' -o -name '*.out' -o -name '*.sh' -o -name '*.py' -o -name '*.c' -o -name '*.h' \
    -o -name crates.txt -o -name stdin -o -name stdout -o -path ./oa -o -path ./prove -o -path './tools/*' \) | xargs -d '\n' grep -ohE '[A-Za-z_][A-Za-z0-9_]*' | sort -u
)
while read -r file; do files[${file##*/}]=1; done < <(sources)
for folder in crates/*/*/; do
  folder=${folder%/}
  words[${folder##*/}]=1
done
for file in "${!files[@]}"; do [[ $file == .* ]] || words[${file%%.*}]=1; done

for document in "${documents[@]}"; do
  while IFS=: read -r line text; do
    looked=$((looked + 1))
    case $text in
      ']('*) text=${text#'('}; text=${text#']('}; check_link "$document" "$line" "${text%')'}" ;;
      *) text=${text#'`'}; check_quoted "$document" "$line" "${text%'`'}" ;;
    esac
  done < <(grep -n '' "$document" | grep -vE '^[0-9]+:    ' | grep -oE '^[0-9]+:|\]\([^)]*\)|`[^`]+`' | awk '/^[0-9]+:$/ { line = $0; next } { print line $0 }')
done
while IFS=: read -r page line path; do
  path=${path#.Pa } looked=$((looked + 1))
  path=${path%% *}
  [[ $path == *[A-Z][A-Z][A-Z]*.oa || $path == */out/* ]] || is_there docs "$path" || complain "$page" "$line" "there is no path $path"
done < <(grep -n '^\.Pa ' docs/man/*)
headline=crates/oa_cli/specs/Headline.antt
[ "$(sed -n 's/^> //p' README.md | tr '\n' ' ')" = "$(sed -n '/^--     For /,/^--$/s/^--  *//p' $headline | tr '\n' ' ')" ] ||
  complain README.md 1 "the quotation isn't what stands in $headline"
first=$(wc -w <README.md) all=$(cat README.md CONTRIBUTING.md docs/*.md | wc -w)
[ "$first" -le 1500 ] || complain README.md 1 "$first words, of which 1500 may be"
[ "$all" -le 37000 ] || complain docs 1 "$all words with README and CONTRIBUTING, of which 37000 may be"
echo "check: ${#documents[@]} documents, $looked links and names, $first words in README and $all with docs, $missing complaints"
[ $missing -eq 0 ]
