#!/usr/bin/env bash
# Times the totals of a trace. It has 10,000 mark ends over 1,000,000 objects of 30 sizes; each mark end marks every second
# object of the cycle before it, and the first 50 objects. The time is the least processor time of three runs, less that of
# a run which reads the trace and makes the answers alone. All is measured in this run; look at the ratio, since the
# seconds are this machine's. OBJECTS and ENDS change the numbers.
set -euo pipefail
cd "$(dirname "$0")/.."
objects=${OBJECTS:-1000000}
ends=${ENDS:-10000}
bin=crates/bench/out/bench
(cd crates/bench && rt run < stdin > /dev/null)
input=$(mktemp)
trap 'rm -f "$input"' EXIT

awk -v ends="$ends" -v objects="$objects" 'BEGIN {
  print "goheap 1"
  print "heap 128 procs 1 rate 0 seed 1 goal 65536"
  for (c = 0; c <= ends; c++) {
    first = int(objects * c / (ends + 1))
    next_first = int(objects * (c + 1) / (ends + 1))
    for (i = first; i < next_first; i++) print "a 0 " 16 + 40 * (i % 30) " s 0"
    if (c == ends) break
    print "gc 1000000"
    print "m 0 49"
    if (c > 0) for (i = first; i < next_first; i += 2) print "m " i " " i
  }
  print "end"
}' > "$input"

# seconds WORD: the least processor seconds of three runs on the trace
seconds() {
  local best=1000000 one TIMEFORMAT=%U
  for _ in 1 2 3; do
    one=$({ time "$bin" history "$1" < "$input" > /dev/null; } 2>&1)
    best=$(awk -v a="$best" -v b="$one" 'BEGIN { print (a < b ? a : b) }')
  done
  echo "$best"
}

lists=$(seconds lists)
totals=$(seconds totals)
awk -v l="$lists" -v t="$totals" -v n="$ends" -v o="$objects" 'BEGIN {
  printf "%d mark ends, %d objects: reading %.2f s, totals %.2f s (%.2f times)\n", n, o, l, t - l, (t - l) / l
}'
