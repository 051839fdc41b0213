#!/usr/bin/env bash
# readme.sh [NAME.. | all]: the figures of the README and the table of docs/speed.md: runs the scripts beside it that time goheap and its layers (or
# those named), one after another, and prints a row for each line that they print, as it comes. Each measures what it compares side by side. What a
# script's figures are stands in its first lines. It wants the program proved and built, valgrind and gcc, and an otherwise idle machine for some
# twenty minutes; AWK names the awk that `real` measures beside, and TRACE its trace. Ends with status 1 where a script failed.
#
# `gate` runs no gate: it adds up the minutes of docs/gate.md, and reckons from them how long `rt ci` takes. Two more are run where they are named, or
# by `all`: `programs`, which compares with real Go programs and wants a Go (GO names it), and `stress`, whose 10,000 runs take hours. Where there is
# no Go it says so and goes on.
set -u

cd "$(dirname "$(readlink -f "$0")")/.." || exit 2
usual=(run real check sampled mark_ends marks_read gen history pins first gate core table pages bitmap marks profile scavenge event_words threads)
[ $# -gt 0 ] || set -- "${usual[@]}"
[ "$*" != all ] || set -- "${usual[@]}" programs stress
for name; do
  [ -x "bench/$name.sh" ] || { echo "bench/readme.sh: no script bench/$name.sh" >&2; exit 2; }
done
if [ "$*" != gate ]; then
  ./goheap --build || exit 1
  (cd crates/bench && rt run <stdin >/dev/null 2>&1) || { echo "bench/readme.sh: the program of crates/bench does not run" >&2; exit 1; }
fi

# A line as a row: what stands before its last colon or, in a script's own table, before its first column, and what behind.
row() {
  awk -v script="$1" '
    NF == 0 { next }
    {
      gsub(/\|/, "/")
      at = match($0, /: [^:]*$/)
      if (at) { what = substr($0, 1, at - 1); value = substr($0, at + 2) }
      else if (match($0, /  +/)) { what = substr($0, 1, RSTART - 1); value = substr($0, RSTART + RLENGTH) }
      else { what = $0; value = "" }
      gsub(/  +/, " / ", value)
      if (what == "") what = "(columns)"
      print "| " what " | " value " | `" script "` |"
      fflush()
    }'
}

# The processor minutes of all rows of docs/gate.md together, and the minutes that they take on two and on four processors: so many parts of
# the sum, but no less than the longest chain of proofs up to the program (launcher/build.py).
gate() {
  local chain
  chain=$(python3 launcher/build.py --chain goheap) || return
  awk -F '|' -v chain="$(awk '{ sum += $2 } END { print sum }' <<<"$chain")" '
    $2 ~ /^ *`[a-z0-9_]+` *$/ { sum += $6; rows++ }
    END {
      if (!rows) { print "docs/gate.md has no row of a crate" >"/dev/stderr"; exit 1 }
      printf "rt ci from nothing, %d crates together: %.0f processor minutes\n", rows, sum
      for (processors = 2; processors <= 4; processors += 2) {
        minutes = sum / processors
        printf "rt ci from nothing, on %d processors: %.0f minutes (reckoned)\n", processors, minutes < chain ? chain : minutes
      }
    }' docs/gate.md
}

failed=0
echo "$(git log -1 --format=%cs), $(nproc) processors ($(sed -n 's/^model name[^:]*: //p' /proc/cpuinfo | head -n 1)), $(rt version | head -n 1)"
echo
echo '| what | measured | script |'
echo '|---|---|---|'
for name; do
  if [ "$name" = programs ] && ! command -v "${GO:-go}" >/dev/null; then
    echo "bench/readme.sh: no ${GO:-go}, so no rows of bench/programs.sh" >&2
    continue
  fi
  words=()
  [ "$name" = real ] && [ -n "${TRACE-}" ] && words=("$TRACE")
  errors=$(mktemp)
  if [ "$name" = gate ]; then gate; else "bench/$name.sh" ${words[@]+"${words[@]}"}; fi 2>"$errors" | row "$name"
  if [ "${PIPESTATUS[0]}" -ne 0 ]; then
    echo "bench/readme.sh: $name failed: $(tail -n 1 "$errors")" >&2
    failed=1
  fi
  rm -f "$errors"
done
exit $failed
