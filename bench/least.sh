# For the scripts beside it: the least time of five runs of a command of `oa`, or of another program, on an input, in
# microseconds. They need the proved program, or the name of another in `program`.
[ -n "${program:-}" ] || ./prove --is-ready oa || { echo "the proved program isn't there: run ./prove first" >&2; exit 2; }
oa=${program:-crates/oa/out/oa}
least() { # COMMAND INPUT: the command may be two words
  local best= start end spent
  for _ in 1 2 3 4 5; do
    start=$(date +%s%N)
    "${program:-$oa}" $1 <"$2" >"$work/out" 2>/dev/null || true
    end=$(date +%s%N)
    spent=$(((end - start) / 1000))
    if [ -z "$best" ] || [ "$spent" -lt "$best" ]; then best=$spent; fi
  done
  echo "$best"
}
