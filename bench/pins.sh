#!/usr/bin/env bash
# What `recorder/pins` takes for 1,000,000 objects, its reading of trace and report included, measured in one run on one machine: for
# 100 mark ends of which the last marks 5,000 objects, for one that marks them all, of 1,000 stacks, and for one that marks every other,
# each of a stack of its own. It prints the median processor time of five and the peak of memory, beside that of an awk line that sums a field
# of both files.
set -eu

. "$(dirname "$(readlink -f "$0")")/timing.sh"
rounds=5

# trace KIND: objects of 1 to 512 bytes on 128 chunks.
trace() {
  awk -v kind="$1" 'BEGIN {
    print "goheap 1"
    print "heap 128 procs 1 rate 0 seed 1 goal 65536"
    for (i = 0; i < 1000000; i++) {
      print "a 0 " 1 + (i * 7919) % 512, (i % 3 ? "s" : "n"), (kind == "apart" ? i : i % 1000)
      if (kind == "hundred" && (i + 1) % 10000 == 0) {
        print "gc 4194304"
        print "m 0 999"
        print "m " i - 3999 " " i
      }
    }
    if (kind != "hundred") print "gc 4194304"
    if (kind == "all") print "m 0 999999"
    if (kind == "apart") for (i = 0; i < 1000000; i += 2) print "m " i " " i
    print "end"
  }'
}

# measure NAME OUT COMMAND: adds the processor seconds and the peak of memory in KB of the command, over a trace and its report, to those noted.
measure() {
  local name=$1 out=$2
  shift 2
  /usr/bin/time -f '%U %S %M' -a -o "$folder/$out.$name" "$@" "$folder/$name.trace" "$folder/$name.report" >/dev/null
}

# median OUT NAME: the median of the processor seconds noted.
median() { awk '{ print $1 + $2 }' "$folder/$1.$2" | sort -n | sed -n "$(((rounds + 1) / 2))p"; }

for name in hundred all apart; do
  trace $name >"$folder/$name.trace"
  ./goheap run <"$folder/$name.trace" >"$folder/$name.report"
  for ((round = 0; round < rounds; round++)); do
    measure $name pins recorder/pins
    measure $name awk awk '{ sum += $3 } END { print sum }'
  done
  awk -v name=$name -v pins="$(median pins $name)" -v sum="$(median awk $name)" -v peak="$(awk '$3 > most { most = $3 } END { print most }' "$folder/pins.$name")" 'BEGIN {
    printf "%s: %.1f s of processor time, %.0f MB, %.1f times the awk line\n", name, pins, peak / 1024, pins / sum
  }'
done
