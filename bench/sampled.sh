#!/usr/bin/env bash
# What sampling every object costs `goheap run`, measured in one run on one machine: 1,000,000 objects with 10 mark ends at rate 1
# beside the same at rate 0, of 1,000 stacks and of 100,000, each with a size of its own. Each time is the median of five, less the
# median of five for a trace without objects. It prints the ratios.
set -eu

. "$(dirname "$(readlink -f "$0")")/timing.sh"
rounds=5

# trace OBJECTS STACKS RATE: objects of 1 to 512 bytes on 128 chunks, by so many stacks in turn, with a mark end after each 100,000 of
# them that marks the first 1000 objects and the 4000 last ones.
trace() {
  awk -v objects="$1" -v stacks="$2" -v rate="$3" 'BEGIN {
    print "goheap 1"
    print "heap 128 procs 1 rate " rate " seed 1 goal 65536"
    for (i = 0; i < objects; i++) {
      stack = i % stacks
      print "a 0 " 1 + (stack * 7919) % 512, (i % 3 ? "s" : "n"), stack
      if ((i + 1) % 100000 == 0) {
        print "gc 4194304"
        print "m 0 999"
        print "m " i - 3999 " " i
      }
    }
    print "end"
  }'
}

for rate in 0 1; do
  trace 0 1 $rate >"$folder/empty.$rate"
  for stacks in 1000 100000; do
    trace 1000000 $stacks $rate >"$folder/$stacks.$rate"
  done
done

run_goheap() { ./goheap run <"$folder/$1" >/dev/null; }
net() { echo $(($(median goheap "$1.$2") - $(median goheap "empty.$2"))); }

run_goheap empty.0 # once, before anything is timed
for ((round = 0; round < rounds; round++)); do
  for name in empty 1000 100000; do
    for rate in 0 1; do
      time_of goheap $name.$rate
    done
  done
done

for stacks in 1000 100000; do
  awk -v stacks=$stacks -v without="$(net $stacks 0)" -v with="$(net $stacks 1)" 'BEGIN {
    printf "1,000,000 objects of %d stacks: %.0f ns an object at rate 0, %.0f at rate 1, ratio %.2f\n", stacks, without / 1000, with / 1000, with / without
  }'
done
