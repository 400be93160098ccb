#!/usr/bin/env bash
# Follows docs/tutorial.md to the letter, and examples/*.out: writes the files that the page shows, runs each command, and compares what it writes
# with what stands below it. The programs are the arguments, or ./oa and ./oax. The status is 0 if all is as shown, 1 if anything isn't, and else 2.
#
# A block of the page, which is what stands indented by 4, is a file if it begins with `# NAME.oa:` or `/* NAME.c:`, and a transcript if it
# begins with `$ `; an .out file is a transcript. One that calls `cc` is passed over if there is no C compiler. A line `$ COMMAND` of a transcript
# is run with the status of the one before in `$?`. What it writes to standard error is compared if a line that begins with `oa: ` or `oax: ` is shown.
set -u
top=$(cd "$(dirname "$0")/.." && pwd) || exit 2
oa=${1-$top/oa} oax=${2-$top/oax}
command -v python3 >/dev/null 2>&1 || { echo "tutorial: python3 is not on the path, which the page's tools need" >&2; exit 2; }
work=$(mktemp -d) || exit 2
trap 'rm -rf "$work"' EXIT
mkdir "$work/page" && ln -s "$top/examples" "$work/examples" || exit 2
for name in oa oax; do
  program=${!name}
  [[ $program == /* ]] || program=$PWD/$program
  [ -x "$program" ] || { echo "tutorial: there is no program $program" >&2; exit 2; }
  printf '#!/usr/bin/env bash\nexec %q "$@"\n' "$program" >"$work/$name" && chmod +x "$work/$name" || exit 2
done
PATH=$work:$top/tools:$PATH examples=$work/examples
commands=0 differing=0 last=0

# Runs a command, and compares.
compare() { # PLACE COMMAND EXPECTED
  local shown
  ( (exit "$last"); eval "$2") >"$work/said" 2>"$work/told" </dev/null
  last=$?
  [[ $'\n'$3 != *$'\n''oa: '* && $'\n'$3 != *$'\n''oax: '* ]] || grep -vE '^oax?: no proved program stands ready' "$work/told" >>"$work/said"
  commands=$((commands + 1))
  printf '%s' "$3" >"$work/shown"
  if ! shown=$(diff "$work/shown" "$work/said"); then
    differing=$((differing + 1))
    printf '%s: $ %s\n< as shown, > as written:\n%s\n' "$1" "$2" "$shown"
  fi
}

# Runs the commands of a transcript, in the folder that it is called in.
follow() { # FILE, the number of the transcript's first line, and the transcript on standard input
  local line command='' expected='' number=$2 place
  while IFS= read -r line; do
    if [[ $line == '$ '* ]]; then
      [ -z "$command" ] || compare "$place" "$command" "$expected"
      command=${line#'$ '} expected='' place="$1, line $number"
    else
      expected+=$line$'\n'
    fi
    number=$((number + 1))
  done
  compare "$place" "$command" "$expected"
}

# Does with a block of the page what the page says.
take_block() { # NUMBER BLOCK
  if [[ $2 =~ ^('# '|'/* ')([a-z]+\.(oa|c)): ]]; then
    printf '%s' "$2" >"${BASH_REMATCH[2]}"
  elif [[ $2 == *'$ cc '* ]] && ! command -v cc >/dev/null 2>&1; then
    echo "tutorial: docs/tutorial.md, line $1: there is no C compiler, so this is passed over"
  elif [[ $2 == '$ '* ]]; then
    follow docs/tutorial.md "$1" <<<"${2%$'\n'}"
  fi
}

cd "$work/page" || exit 2
block='' blanks='' number=0 start=0
while IFS= read -r line; do
  number=$((number + 1))
  if [[ $line == '    '* ]]; then
    [ -n "$block" ] || start=$number
    block+=$blanks${line#'    '}$'\n' blanks=''
  elif [ -z "$line" ]; then
    [ -z "$block" ] || blanks+=$'\n'
  elif [ -n "$block" ]; then
    take_block "$start" "$block"
    block='' blanks=''
  fi
done <"$top/docs/tutorial.md"
[ -z "$block" ] || take_block "$start" "$block"
[ $commands -gt 0 ] || { echo "tutorial: docs/tutorial.md shows no command" >&2; exit 2; }
echo "tutorial: $commands commands of docs/tutorial.md were run"

cd "$work" || exit 2
for document in examples/*.oa; do
  out=${document%.oa}.out last=0
  if [ -f "$out" ] && grep -q '^\$ .*< '"$document"'$' "$out"; then
    follow "$out" 1 <"$out"
  else
    differing=$((differing + 1))
    echo "$document: no $out shows what it writes"
  fi
done
echo "tutorial: $commands commands with those of examples/*.out, $differing of them not as shown"
[ $differing -eq 0 ]
