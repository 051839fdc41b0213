#!/usr/bin/env bash
# Times marks and sweeps of full spans, and measures the memory that a mark takes.
# All is measured in this run; look at the ratios, since the seconds are this machine's.
set -eu
cd "$(dirname "$0")/.."
bin=crates/bench/out/bench
(cd crates/bench && rt run < stdin > /dev/null)

# the least processor seconds of nine runs
seconds() {
  local best=1000000 one TIMEFORMAT=%3U
  for _ in 1 2 3 4 5 6 7 8 9; do
    one=$({ time "$bin" marks "$@" > /dev/null; } 2>&1)
    best=$(awk -v a="$best" -v b="$one" 'BEGIN { print (a < b ? a : b) }')
  done
  echo "$best"
}

# the kilobytes of a run
kilobytes() { /usr/bin/time -f '%M' "$bin" marks "$@" 2>&1 > /dev/null; }

empty=$(kilobytes 1 1 1 add)
rising=$(seconds 65536 16 1 add)
scattered=$(seconds 65536 16 7919 add)
filled=$(seconds 65536 16 7919 fill)
swept=$(seconds 65536 16 7919 sweep)
awk -v r="$rising" -v s="$scattered" -v f="$filled" -v w="$swept" 'BEGIN {
  printf "1048576 marks in rising order: %.3f s\n", r
  printf "1048576 marks in scattered order: %.3f s, %.1f times as long\n", s, s / r
  printf "65536 sweeps: %.3f s, %.2f of the time of the scattered marks\n", w - f, (w - f) / s
}'
for objects in 1024 341 64 16 4 3 2 1; do
  spans=$(( 1048576 / objects < 65536 ? 1048576 / objects : 65536 ))
  for stride in 1 7919; do
    memory=$(kilobytes "$spans" "$objects" "$stride" add)
    awk -v m="$memory" -v e="$empty" -v s="$spans" -v o="$objects" -v d="$stride" 'BEGIN {
      printf "%d spans of %d objects, stride %d: %.1f bytes a mark\n", s, o, d, (m - e) * 1024 / (s * o)
    }'
  done
done
