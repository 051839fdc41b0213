#!/usr/bin/env bash
# Measures `goheap check` beside `goheap run`, in one run on one machine: on a trace of 1000000 objects with 100 mark ends, on
# the same where each object is sampled, and on one of 10000 mark ends over a small heap. Each time is the median of five. It
# prints the ratio of both.
#
# Then it measures `goheap check --pieces=N` beside `goheap check` on the first of these. What of a call is reading is the time
# of `check` on the same input with a malformed last line, which is read whole and not judged; the judging is what is left. It
# prints the share of reading in `check`, and of each number of pieces how its judging and its peak of memory compare.
set -eu

. "$(dirname "$(readlink -f "$0")")/timing.sh"
rounds=5

# make_trace CHUNKS OBJECTS MARK_ENDS RATE: so many objects of 8 to 512 bytes and 1000 stacks in cycles of one length, sampled at
# this rate. A mark end marks every other object of the cycle before it, so that half of each cycle's objects live for one cycle
# more.
make_trace() {
  awk -v chunks="$1" -v objects="$2" -v cycles="$(($3 + 1))" -v rate="$4" 'BEGIN {
    print "goheap 1"
    print "heap " chunks " procs 1 rate " rate " seed 1 goal 65536"
    each = int(objects / cycles)
    for (c = 0; c < cycles; c++) {
      if (c > 0) {
        print "gc 1"
        for (i = (c - 1) * each; i < c * each; i += 2) print "m " i " " i
      }
      last = c == cycles - 1 ? objects : (c + 1) * each
      for (i = c * each; i < last; i++) print "a 0 " 8 + (i * 7919) % 505 " s " i % 1000
    }
    print "end"
  }'
}

make_trace 128 1000000 100 0 >"$folder/large"
make_trace 128 1000000 100 1 >"$folder/sampled"
make_trace 1 100000 10000 0 >"$folder/cycles"
./goheap run <"$folder/large" >"$folder/large.report"

run_run() { ./goheap run <"$folder/$1" >/dev/null; }
run_check() { ./goheap check <"$folder/$1.pair" >/dev/null; }

for kind in large sampled cycles; do
  ./goheap run <"$folder/$kind" >"$folder/$kind.report"
  cat "$folder/$kind" "$folder/$kind.report" >"$folder/$kind.pair"
  for ((round = 0; round < rounds; round++)); do
    time_of run "$kind"
    time_of check "$kind"
  done
  run=$(median run "$kind")
  check=$(median check "$kind")
  awk -v kind="$kind" -v run="$run" -v check="$check" \
    'BEGIN { printf "%s: run %.3f s, check %.3f s, ratio %.2f\n", kind, run / 1e6, check / 1e6, check / run }'
done

# The large trace with its report, whose last line is malformed.
sed '$ s/.*/x/' "$folder/large.pair" >"$folder/large.unread"

run_read() { ./goheap check <"$folder/$1.unread" 2>"$folder/said" && exit 1 || grep -q malformed "$folder/said"; }
run_pieces_1() { ./goheap check --pieces=1 <"$folder/$1.pair" >/dev/null; }
run_pieces_4() { ./goheap check --pieces=4 <"$folder/$1.pair" >/dev/null; }
run_whole() { run_check "$1"; }

for ((round = 0; round < rounds; round++)); do
  for command in read whole pieces_1 pieces_4; do
    time_of $command large
  done
done
read=$(median read large)
whole=$(median whole large)
awk -v read="$read" -v whole="$whole" \
  'BEGIN { printf "check: %.3f s, of which reading %.3f s (%.2f), judging %.3f s\n", whole / 1e6, read / 1e6, read / whole, (whole - read) / 1e6 }'
memory=$(peak large.pair check)
for pieces in 1 4; do
  time=$(median pieces_$pieces large)
  awk -v pieces=$pieces -v time="$time" -v read="$read" -v whole="$whole" -v peak="$(peak large.pair check --pieces=$pieces)" -v memory="$memory" 'BEGIN {
    printf "check --pieces=%d: judging %.3f s, ratio %.2f; memory %d KB, ratio %.2f\n",
      pieces, (time - read) / 1e6, (time - read) / (whole - read), peak, peak / memory
  }'
done
