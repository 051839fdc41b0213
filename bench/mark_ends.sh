#!/usr/bin/env bash
# What mark ends cost `goheap run`, measured in one run on one machine. Each time is the median of five, less the median
# of five for a trace without objects; the instructions are those that callgrind counts, less those of that trace.
set -eu

. "$(dirname "$(readlink -f "$0")")/timing.sh"
rounds=5

# trace OBJECTS EVERY OLD NEW: objects of 1 to 512 bytes on 128 chunks, with a mark end after each EVERY of them (none for
# 0) that marks the first OLD objects and the NEW last ones.
trace() {
  awk -v objects="$1" -v every="$2" -v old="$3" -v new="$4" 'BEGIN {
    print "goheap 1"
    print "heap 128 procs 1 rate 0 seed 1 goal 65536"
    for (i = 0; i < objects; i++) {
      print "a 0 " 1 + (i * 7919) % 512, (i % 3 ? "s" : "n"), i % 1000
      if (every && (i + 1) % every == 0) {
        print "gc 4194304"
        print "m 0 " old - 1
        print "m " i + 1 - new " " i
      }
    }
    print "end"
  }'
}

trace 0 0 0 0 >"$folder/empty"
trace 1000000 0 0 0 >"$folder/without"
trace 1000000 10000 1000 4000 >"$folder/hundred"
trace 1000000 100 10 40 >"$folder/many"

run_goheap() { ./goheap run <"$folder/$1" >/dev/null; }
net() { echo $(($(median goheap "$1") - $(median goheap empty))); }

run_goheap empty # once, before anything is timed
for ((round = 0; round < rounds; round++)); do
  for name in empty without hundred many; do
    time_of goheap $name
  done
done

awk -v without="$(net without)" -v hundred="$(net hundred)" -v many="$(net many)" 'BEGIN {
  printf "1,000,000 objects without mark ends: %.0f ns an object\n", without / 1000
  printf "with 100 mark ends: %.0f ns an object, %.2f times as much\n", hundred / 1000, hundred / without
  printf "with 10,000 mark ends over a small heap: %.2f s\n", many / 1000000
}'
awk -v many="$(instructions many)" -v empty="$(instructions empty)" 'BEGIN {
  printf "a cycle of 100 objects on 128 chunks with its mark end: %.2f million instructions\n", (many - empty) / 10000 / 1000000
}'
