#!/usr/bin/env bash
# What `goheap gen` costs, beside `cat` and an awk line that print the same bytes, in one run on one machine. Each time is
# the least wall-clock time of nine, of 1,000,000 objects unless OBJECTS says otherwise; the memory is the most that the
# program had, beyond that of one object. And what `goheap demo` of 100,000 objects costs.
set -euo pipefail

cd "$(dirname "$(readlink -f "$0")")/.."
objects=${OBJECTS:-1000000}
text=$(mktemp)
trap 'rm -f "$text" "$text.peak"' EXIT
./goheap --build
./goheap gen 1 "$objects" >"$text"

gen() { ./goheap gen 1 "$objects"; }
demo() { ./goheap demo 1 100000; }
by_cat() { cat "$text"; }
by_awk() { awk '{ print }' "$text"; }

# The least microseconds of nine runs, into a pipe that is read.
time_of() {
  local round start end
  for round in 1 2 3 4 5 6 7 8 9; do
    start=${EPOCHREALTIME/./}
    "$1" | cat >/dev/null
    end=${EPOCHREALTIME/./}
    echo $((end - start))
  done | sort -n | head -1
}

# The most bytes of memory of a run.
peak() {
  /usr/bin/time -f %M -o "$text.peak" crates/goheap/out/goheap gen 1 "$1" >/dev/null
  echo $(($(cat "$text.peak") * 1024))
}

awk -v objects="$objects" -v bytes="$(wc -c <"$text")" -v gen="$(time_of gen)" -v cat="$(time_of by_cat)" -v awk="$(time_of by_awk)" \
  -v one="$(peak 1)" -v all="$(peak "$objects")" 'BEGIN {
  printf "gen of %d objects, %.1f million bytes: %.3f s\n", objects, bytes / 1000000, gen / 1000000
  printf "ratio to cat: %.1f\n", gen / cat
  printf "ratio to an awk line that prints each line: %.2f\n", gen / awk
  printf "memory: %.1f bytes an object\n", (all - one) / objects
}'
awk -v demo="$(time_of demo)" 'BEGIN { printf "demo of 100000 objects: %.3f s\n", demo / 1000000 }'
