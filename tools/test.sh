#!/usr/bin/env bash
# Tests the tools beside the program: tools/test.sh PROGRAM, where PROGRAM is `oa`. The status is 1 if a test fails.
program=$(readlink -f "${1-$(dirname "$0")/../oa}")
cd "$(dirname "$0")" || exit 2
[ -x "$program" ] || { echo "test.sh: there is no program $program" >&2; exit 2; }
command -v python3 >/dev/null 2>&1 || { echo "test.sh: python3 is not on the path" >&2; exit 2; }
status=0
# A program that stands beside `oa`, or in its own crate: nothing if it isn't a proved one, of which each call would take a minute.
other() { # NAME
  local path
  path=$(dirname "$program")/$1
  [[ $program != */crates/oa/out/oa ]] || path=${program%/oa/out/oa}/$1/out/$1
  [ ! "$path" -ef "../$1" ] || path=../crates/$1/out/$1
  [ ! -x "$path" ] || echo "$path"
}
oac=$(other oac) oax=$(other oax)
for test in test_texts test_calls test_certificates test_install test_memory test_oa2c; do
  "./$test" "$program" || status=1
done
./test_runs "$program" ${oax:+"$oax"} || status=1
if [ -n "$oac" ]; then
  ./test_oac "$oac" || status=1
else
  echo "test.sh: no proved program oac stands ready: test_oac is left out"
fi
exit $status
