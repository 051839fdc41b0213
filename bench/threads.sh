#!/usr/bin/env bash
# What it brings that the workers of a cycle run beside each other, in one run on one machine: on a trace of 1,000,000 objects over 8
# processors with 10 mark ends, on the recorded trace of a real program, and on one of 10,000 mark ends of few events on one chunk,
# `goheap run` on one processor of the machine and on all of them. Each time is the median of five.
#
# Reading and writing stay in one thread. What they take is the time of a trace with as many objects of size 0, which are read and
# answered and take nothing; what is left of a run without them is told too, and so are the instructions of a run, where `perf` counts
# them or valgrind is there.
#
# Last, what page caches bring: on a trace of eight processors that need a new span of one page for each object, in version 2, where
# processors have page caches, beside version 1: how often the heap lock is taken to write to the journal (a block is settled by one
# holding, with all its cuts), and the time on all processors of the machine.
#
# OTHER names a second program to compare with, as one built before a change.
set -eu

. "$(dirname "$(readlink -f "$0")")/timing.sh"
rounds=5
all=$(nproc)

# trace OBJECTS PROCS MARK_ENDS BYTES CHUNKS: so many objects, of sizes from 8 up to so many bytes (of size 0 for 0 bytes), over so many
# processors in turn, in a region of so many chunks. A mark end marks every other object of the cycle before it.
trace() {
  awk -v objects="$1" -v procs="$2" -v cycles="$(($3 + 1))" -v bytes="$4" -v chunks="$5" 'BEGIN {
    print "goheap 1"
    print "heap " chunks " procs " procs " rate 0 seed 1 goal " 512 * chunks
    each = int(objects / cycles)
    for (c = 0; c < cycles; c++) {
      if (c > 0) {
        print "gc 4194304"
        if (bytes) for (i = (c - 1) * each; i < c * each; i += 2) print "m " i " " i
      }
      last = c == cycles - 1 ? objects : (c + 1) * each
      for (i = c * each; i < last; i++) print "a " i % procs " " (bytes ? 8 + (i * 7919) % (bytes - 7) : 0) " s " i % 1000
    }
    print "end"
  }'
}

# pages VERSION BYTES: eight processors, 400,000 objects of so many bytes, and a mark end behind each 30,000, at which all of them die. Each object of 8192 bytes
# has a span of its own, of one page.
pages() {
  awk -v version="$1" -v bytes="$2" 'BEGIN {
    print "goheap " version
    print "heap 128 procs 8 rate 0 seed 1 goal 65536"
    for (i = 0; i < 400000; i++) {
      if (i && i % 30000 == 0) print "gc 4194304"
      print "a " i % 8 " " bytes " n 1"
    }
    print "end"
  }'
}

trace 0 8 0 512 128 >"$folder/empty"
for version in 1 2; do
  pages $version 8192 >"$folder/pages.$version"
done
pages 1 0 >"$folder/pages.nothing"
trace 1000000 8 10 512 128 >"$folder/eight"
trace 1000000 8 10 0 128 >"$folder/eight.nothing"
trace 40000 8 10000 512 1 >"$folder/cycles"
trace 40000 8 10000 0 1 >"$folder/cycles.nothing"
python3 -c 'import lzma, shutil, sys; shutil.copyfileobj(lzma.open(sys.argv[1]), sys.stdout.buffer)' examples/real/gofmt.trace.xz >"$folder/gofmt"
sed 's/^a \([0-9]*\) [0-9]*/a \1 0/; /^m /d' "$folder/gofmt" >"$folder/gofmt.nothing"

program=$(readlink -f crates/goheap/out/goheap)
export GLIBC_TUNABLES=${GLIBC_TUNABLES-glibc.malloc.trim_threshold=134217728:glibc.malloc.top_pad=8388608:glibc.malloc.mmap_threshold=4194304}
run_one() { taskset -c 0 "$program" run <"$folder/$1" >"$folder/report"; }
run_all() { "$program" run <"$folder/$1" >"$folder/report"; }
run_other() { taskset -c 0 "$OTHER" run <"$folder/$1" >"$folder/report"; }
commands="one all${OTHER:+ other}"

run_all empty # once, before anything is timed
for ((round = 0; round < rounds; round++)); do
  for kind in empty eight eight.nothing cycles cycles.nothing gofmt gofmt.nothing pages.1 pages.2 pages.nothing; do
    for command in $commands; do
      time_of "$command" "$kind"
    done
  done
done

# writes KIND: how often a run takes the heap lock to write to the journal.
writes() {
  run_all "$1"
  grep '^j ' "$folder/report" | grep -cv ' cut '
}

# The instructions of a run, or 0 where nothing counts them.
instructions() {
  if perf stat -e instructions:u -x, -o "$folder/counted" "$2" run <"$folder/$1" >/dev/null 2>&1 && grep -q '^[0-9]' "$folder/counted"; then
    awk -F, '/instructions/ { print $1; exit }' "$folder/counted"
  elif command -v valgrind >/dev/null; then
    valgrind --tool=callgrind --callgrind-out-file=/dev/null --log-file="$folder/counted" "$2" run <"$folder/$1" >/dev/null
    awk '/Collected/ { print $NF; exit }' "$folder/counted"
  else
    echo 0
  fi
}

# seconds COMMAND KIND: the median of a command's seconds.
seconds() { awk -v t="$(median "$1" "$2")" 'BEGIN { print t / 1e6 }'; }

for kind in eight gofmt cycles; do
  for command in $commands; do
    awk -v kind=$kind -v command="$command" -v all="$all" -v t="$(seconds "$command" $kind)" -v base="$(seconds "$command" $kind.nothing)" 'BEGIN {
      name = command == "all" ? all " processors" : command == "one" ? "one processor" : "the other program on one processor"
      printf "%s on %s: %.3f s, without reading and writing %.3f s\n", kind, name, t, t - base
    }'
  done
  awk -v kind=$kind -v all="$all" -v one="$(seconds one $kind)" -v many="$(seconds all $kind)" -v one0="$(seconds one $kind.nothing)" \
    -v many0="$(seconds all $kind.nothing)" 'BEGIN {
      printf "%s: %d processors take %.2f of the time of one, %.2f without reading and writing\n", kind, all, many / one, (many - many0) / (one - one0)
    }'
done
awk -v plain="$(writes pages.1)" -v cached="$(writes pages.2)" -v one="$(seconds all pages.1)" -v two="$(seconds all pages.2)" -v none="$(seconds all pages.nothing)" 'BEGIN {
  printf "a span of a page for each object: the lock is taken %d times in version 1 and %d times in version 2, %.3f as often\n", plain, cached, cached / plain
  printf "version 1 takes %.3f s and version 2 %.3f s, %.2f of that, and %.2f without reading and writing\n", one, two, two / one, (two - none) / (one - none)
}'
for name in program OTHER; do
  [ -n "${!name-}" ] || continue
  awk -v name=$name -v eight="$(instructions eight "${!name}")" -v empty="$(instructions empty "${!name}")" 'BEGIN {
    if (eight) printf "%s: %.0f instructions an object\n", name == "OTHER" ? "the other program" : "this program", (eight - empty) / 1e6
  }'
done
