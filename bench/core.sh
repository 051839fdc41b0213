#!/usr/bin/env bash
# Times moves of the ownership core at growing numbers of spans.
# All is measured in this run; look at the ratios, since the seconds are this machine's.
set -eu
cd "$(dirname "$0")/.."
bin=crates/bench/out/bench
(cd crates/bench && rt run < stdin > /dev/null)

# the least processor seconds of five runs
seconds() {
  local best=1000000 one TIMEFORMAT=%3U
  for _ in 1 2 3 4 5; do
    one=$({ time "$bin" core "$@" > /dev/null; } 2>&1)
    best=$(awk -v a="$best" -v b="$one" 'BEGIN { print (a < b ? a : b) }')
  done
  echo "$best"
}

for spans in 16000 64000; do
  one=$(seconds "$spans" 1 fill)
  more=$(seconds "$spans" 257 fill)
  awk -v n="$spans" -v e="$one" -v f="$more" 'BEGIN { printf "%d spans: an Allocate %.0f ns\n", n, (f - e) / (256 * n) * 1e9 }'
done
swept=$(seconds 64000 1 sweep)
awk -v e="$one" -v s="$swept" 'BEGIN {
  printf "64000 spans: a move to take and queue a span %.0f ns, a move to sweep one %.0f ns\n", e / (8 * 64000) * 1e9, (s - e) / (5 * 64000) * 1e9
}'
# The first span in the list of lives is given each time.
for spans in 4000 16000; do
  swept=$(seconds "$spans" 1 sweep)
  given=$(seconds "$spans" 1 give)
  awk -v n="$spans" -v s="$swept" -v g="$given" 'BEGIN {
    printf "%d spans: a Give %.1f us\n", n, (g - s) / n * 1e6
  }'
done
