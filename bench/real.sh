#!/usr/bin/env bash
# real.sh [TRACE]: what `goheap run` costs on any trace that it accepts (default: that of gofmt under examples/real), measured in one run
# on one machine: its instructions a line, as callgrind counts them, with those of reading alone, its time beside `wc -l` and an awk sum of
# one field, and what mark ends cost, as the instructions of 1,000,000 objects with 100 mark ends beside those of the same objects without.
# Each time is the median of 25, less the median of 25 for a trace without objects. AWK names the awk to be measured beside (default: awk).
set -eu

[ $# -le 1 ] || { echo "usage: bench/real.sh [TRACE]" >&2; exit 2; }
trace=${1:+$(readlink -f "$1")}
. "$(dirname "$(readlink -f "$0")")/timing.sh"
awk=${AWK:-awk}
rounds=25

if [ -n "$trace" ]; then
  cp "$trace" "$folder/real"
else
  python3 -c 'import lzma, shutil, sys; shutil.copyfileobj(lzma.open(sys.argv[1]), sys.stdout.buffer)' examples/real/gofmt.trace.xz >"$folder/real"
fi
(head -2 "$folder/real"; echo end) >"$folder/empty"
# All is read of a trace whose last line is malformed, and nothing is run.
sed '$ s/.*/x/' "$folder/real" >"$folder/unread"

# objects EVERY: 1,000,000 objects of 1 to 512 bytes on 128 chunks, with a mark end after each EVERY of them (none for 0)
# that marks the first 1000 objects and the 4000 last ones.
objects() {
  awk -v every="$1" 'BEGIN {
    print "goheap 1"
    print "heap 128 procs 1 rate 0 seed 1 goal 65536"
    for (i = 0; i < 1000000; i++) {
      print "a 0 " 1 + (i * 7919) % 512, (i % 3 ? "s" : "n"), i % 1000
      if (every && (i + 1) % every == 0) {
        print "gc 4194304"
        print "m 0 999"
        print "m " i - 3999 " " i
      }
    }
    print "end"
  }'
}
objects 0 >"$folder/without"
objects 10000 >"$folder/hundred"

run_goheap() { ./goheap run <"$folder/$1" >/dev/null; }
run_wc() { wc -l <"$folder/$1" >/dev/null; }
run_awk() { "$awk" '{ s += $3 } END { print s }' <"$folder/$1" >/dev/null; }

net() { echo $(($(median "$1" real) - $(median "$1" empty))); }

run_goheap real # refused, if it is, before anything is timed
for ((round = 0; round < rounds; round++)); do
  for tool in wc awk goheap; do
    time_of $tool empty
    time_of $tool real
  done
done

lines=$(wc -l <"$folder/real")
awk -v lines="$lines" -v real="$(instructions real)" -v unread="$(instructions unread)" -v goheap="$(net goheap)" -v wc="$(net wc)" -v awk="$(net awk)" 'BEGIN {
  printf "goheap run on %d lines: %.3f s, %.0f instructions a line, %.0f of them for reading\n", lines, goheap / 1000000, real / lines, unread / lines
  printf "ratio to wc -l: %.2f\n", goheap / wc
  printf "ratio to an awk sum of the sizes: %.2f\n", goheap / awk
}'
awk -v without="$(instructions without)" -v hundred="$(instructions hundred)" 'BEGIN {
  printf "1,000,000 objects: %.0f instructions an object; with 100 mark ends %.2f times as many\n", without / 1000000, hundred / without
}'
