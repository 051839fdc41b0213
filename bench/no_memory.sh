#!/usr/bin/env bash
# Refuses each allocation of `goheap` in turn, from the first until a run asks for no more, on the traces under examples/, for the words
# that read nothing, for a profile with each mark end, for judged pairs, and for four small cases. Each run must end by itself: with status 7, nothing
# written and the one line for it, or with what it answers when nothing is refused (a list that cannot double may still grow, and a
# thread that cannot be made is done without); a report is any that is sound, since workers run beside each other. It
# prints the number of runs, and ends with status 1 where one ended otherwise. It takes a C compiler, for `bench/refuse.c`, which
# stands between the program and the allocator of the C library.
set -euo pipefail
cd "$(dirname "$(readlink -f "$0")")/.."
folder=$(mktemp -d)
trap 'rm -rf "$folder"' EXIT

cc -shared -fPIC -O1 -o "$folder/refuse.so" bench/refuse.c -ldl

./goheap --build
program=crates/goheap/out/goheap
runs=0
told=0
failed=0

# A run with the allocation of that number refused. What it wrote, what it said and whether it came to that call stand in files.
run() {
  local number=$1 input=$2
  shift 2
  set +e
  timeout 60 env REFUSED="$number" LD_PRELOAD="$folder/refuse.so" "$program" "$@" <"$input" >"$folder/wrote" 2>"$folder/said" 9>"$folder/refused"
  status=$?
  set -e
}

# answers INPUT WORD: what was written and said is what it was, or a sound report.
answers() {
  cmp -s "$folder/said" "$folder/whole_said" || return 1
  cmp -s "$folder/wrote" "$folder/whole" && return 0
  [ "$2" = run ] && [ "$(cat "$1" "$folder/wrote" | "$program" check)" = "check ok" ]
}

# each NAME INPUT WORDS..: refuses each allocation of these words in turn.
each() {
  local name=$1 input=$2 number=0
  shift 2
  run 0 "$input" "$@"
  local whole=$status
  cp "$folder/wrote" "$folder/whole"
  cp "$folder/said" "$folder/whole_said"
  while :; do
    number=$((number + 1))
    run $number "$input" "$@"
    [ -s "$folder/refused" ] || break
    runs=$((runs + 1))
    if [ $status -eq 7 ] && [ ! -s "$folder/wrote" ] && [ "$(cat "$folder/said"; echo .)" = "goheap: out of memory
." ]; then
      told=$((told + 1))
    elif [ $status -ne $whole ] || ! answers "$input" "$1"; then
      echo "$name: allocation $number refused: status $status, $(wc -c <"$folder/wrote") bytes written, it said: $(head -c 200 "$folder/said")" >&2
      failed=1
    fi
  done
  echo "$name: $((number - 1)) allocations refused in turn"
}

for trace in examples/*.trace; do
  each "$(basename "$trace")" "$trace" run
done
each classes /dev/null classes
for objects in 1 20001; do
  each "gen 1 $objects" /dev/null gen 1 $objects
done
each 'gen 1 0' /dev/null gen 1 0
each 'demo 1 1000' /dev/null demo 1 1000
each 'run --each' examples/leak-by-stack.trace run --each
for report in leak-by-stack.report leak-by-stack.each; do
  cat examples/leak-by-stack.trace "examples/$report" >"$folder/pair"
  each "check $report" "$folder/pair" check
done
# Small cases: a slot that is used again, a large object whose pages are released, a sampled cycle, and a judged pair.
head_of() { printf 'goheap 1\nheap 1 procs 1 rate %s seed 1 goal %s\n' "$1" "$2"; }
{ head_of 0 512; printf 'a 0 24 s 1\na 0 24 s 1\ngc 1\nm 1 1\na 0 24 s 1\nend\n'; } >"$folder/again"
{ head_of 0 0; printf 'a 0 1048576 n 1\ngc 1\nend\n'; } >"$folder/released"
{ head_of 1 512; printf 'a 0 24 s 7\na 0 24 s 7\na 0 24 s 7\ngc 1\nm 0 0\nend\n'; } >"$folder/sampled"
for input in again released sampled; do
  each "run --background=0 of $input" "$folder/$input" run --background=0
done
{
  head_of 0 512
  printf 'a 0 24 s 1\na 0 24 n 1\nend\n'
  printf 'o 0 0xc000000000\no 1 0xc000002000\nj 0 0 take 0 1 6\nj 1 0 take 1 1 7\nt 3 2 0\nend\n'
} >"$folder/apart"
each 'check of two objects' "$folder/apart" check
echo "$runs runs: $told ended with status 7 and nothing written, $((runs - told)) with their answer"
exit $failed
