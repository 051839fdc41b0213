#!/usr/bin/env bash
# Measures `goheap run` beside `wc -l` and an awk sum, in one run on one machine, and how its time and its instructions grow with the trace.
# Each time is the median of nine, less the median of nine for a trace without objects, whose own time and memory are told as well; the
# instructions are those that callgrind counts for 100,000 objects, less those of a trace without objects.
set -eu

. "$(dirname "$(readlink -f "$0")")/timing.sh"
rounds=9
counts='10000 100000 1000000'

# make_trace CHUNKS [VERSION]: a trace on so many chunks, with the allocations that the input has; more than 128 want version 2.
make_trace() {
  echo "goheap ${2:-1}"
  echo "heap $1 procs 1 rate 0 seed 1 goal 65536"
  cat
  echo "end"
}

# Objects of 1 to 512 bytes, which all find room.
small_sizes() {
  awk -v objects="$1" 'BEGIN { for (i = 0; i < objects; i++) print "a 0 " 1 + (i * 7919) % 512, (i % 3 ? "s" : "n"), i % 1000 }' | make_trace 128
}

# Objects of 512 bytes, sixteen of which fill a span of one page: 1,000,000 of them take 62500 of the 65536 pages.
one_page_spans() {
  awk -v objects="$1" 'BEGIN { for (i = 0; i < objects; i++) print "a 0 512 n 1" }' | make_trace 128
}

# One large object that fills the region, and then misses alone.
misses() {
  awk -v objects="$1" 'BEGIN { if (objects) print "a 0 4194304 n 1"; for (i = 1; i < objects; i++) print "a 0 8 n 1" }' | make_trace 1
}

kinds='small_sizes one_page_spans misses'
for kind in $kinds; do
  for objects in 0 $counts; do
    $kind $objects >"$folder/$kind.$objects"
  done
done

make_trace 4096 2 </dev/null >"$folder/largest.0"

run_goheap() { ./goheap run <"$folder/$1" >/dev/null; }
run_wc() { wc -l <"$folder/$1" >/dev/null; }
run_awk() { awk '{ s += $3 } END { print s }' <"$folder/$1" >/dev/null; }

net() { echo $(($(median "$1" "$2.$3") - $(median "$1" "$2.0"))); }

run_goheap small_sizes.0 # once, before anything is timed
for ((round = 0; round < rounds; round++)); do
  time_of goheap largest.0
  for tool in wc awk; do
    time_of $tool small_sizes.0
    time_of $tool small_sizes.1000000
  done
  for kind in $kinds; do
    for objects in 0 $counts; do
      time_of goheap "$kind.$objects"
    done
  done
done

awk -v goheap="$(net goheap small_sizes 1000000)" -v wc="$(net wc small_sizes 1000000)" -v awk="$(net awk small_sizes 1000000)" 'BEGIN {
  printf "goheap run on 1,000,000 objects: %.3f s\n", goheap / 1000000
  printf "ratio to wc -l: %.2f\n", goheap / wc
  printf "ratio to an awk sum of the sizes: %.2f\n", goheap / awk
}'
for kind in $kinds; do
  for objects in $counts; do
    awk -v kind=$kind -v time="$(net goheap $kind $objects)" -v objects=$objects \
      'BEGIN { printf "%s, %d objects: %.0f ns an object\n", kind, objects, 1000 * time / objects }'
  done
done
for kind in $kinds; do
  awk -v kind=$kind -v all="$(instructions $kind.100000)" -v none="$(instructions $kind.0)" \
    'BEGIN { printf "%s, 100000 objects: %.0f instructions an object\n", kind, (all - none) / 100000 }'
done
empty=$(peak small_sizes.0 run)
awk -v large="$(median goheap small_sizes.0)" -v one="$(median goheap misses.0)" -v peak=$empty -v least="$(peak misses.0 run)" 'BEGIN {
  printf "an empty trace of 128 chunks: %.2f s, %.0f MB\n", large / 1000000, 1024 * peak / 1000000
  printf "an empty trace of one chunk: %.3f s, %.0f MB\n", one / 1000000, 1024 * least / 1000000
}'
awk -v time="$(median goheap largest.0)" -v peak="$(peak largest.0 run)" 'BEGIN {
  printf "an empty trace of 4096 chunks: %.2f s, %.0f MB\n", time / 1000000, 1024 * peak / 1000000
}'
awk -v kilobytes=$(($(peak small_sizes.1000000 run) - empty)) 'BEGIN { printf "memory: %.1f bytes an object beyond an empty trace\n", 1024 * kilobytes / 1000000 }'
