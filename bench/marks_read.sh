#!/usr/bin/env bash
# Times the reading of 10,000 mark ends that mark 20,000,000 objects, in the fewest lines and in many. The last line is
# malformed, so that the program reads all lines, refuses that one and runs nothing.
set -eu

cd "$(dirname "$(readlink -f "$0")")/.."
folder=$(mktemp -d)
trap 'rm -rf "$folder"' EXIT

# A trace of 2,000 objects that 10,000 mark ends keep, named by spans of so many objects.
make_trace() {
  awk -v span="$1" 'BEGIN {
    print "goheap 1"
    print "heap 128 procs 1 rate 0 seed 1 goal 65536"
    for (i = 0; i < 2000; i++) print "a 0 8 n 1"
    for (i = 0; i < 2000; i += span) marks = marks "m " i " " i + span - 1 "\n"
    for (i = 0; i < 10000; i++) printf "gc 1\n%s", marks
    print "x"
  }'
}

# The wall-clock microseconds of one run.
time_of() {
  local start=${EPOCHREALTIME/./}
  ./goheap run <"$1" 2>"$folder/said" && exit 1
  local end=${EPOCHREALTIME/./}
  grep -q 'malformed' "$folder/said"
  echo $((end - start))
}

for span in 2000 4; do
  make_trace $span >"$folder/$span"
done
time_of "$folder/2000" >"$folder/first" # once, before anything is timed
for span in 2000 4; do
  for round in 1 2 3 4 5; do
    time_of "$folder/$span"
  done | sort -n | sed -n 3p >"$folder/median"
  awk -v span=$span -v bytes="$(wc -c <"$folder/$span")" -v time="$(cat "$folder/median")" 'BEGIN {
    printf "%d lines of marks in %.1f million bytes: %.2f s\n", 10000 * 2000 / span, bytes / 1000000, time / 1000000
  }'
done
