#!/usr/bin/env bash
# Runs goheap on made-up traces of the versions 1 to 3 and of 2 to 64 processors over mark ends, goals, rates and 0 to 4 background sweepers, many of
# them with many tiny objects, in small regions, so that spans, sets and the heap lock are fought over; a third of the runs each on one, on two and on
# all processors of the machine. Each report must be judged sound, and each run must end by itself within a minute. It prints how many runs there were,
# how many objects, how many of them were missed or stand in the blocks of others, how many lines of the journal, and on how many traces two runs gave
# two reports. A tenth as many runs more, on traces of up to 100 mark ends, stand before 1 to 4 watchers: each line of what they saw must have the sums
# that the trace and the printed answers have as of its mark end, counted apart, and each watcher's lines must rise to the last mark end.
#
# Then a run whose address space is limited, in steps of 3 MB, must end with status 0 or 7 wherever the program starts at all, and so
# must one whose user may start no thread.
#
# Usage: bench/stress.sh [RUNS [SEED]] (10000 runs by default). Ends with status 1 at the first run that is not as it should be, whose
# trace it keeps.
set -eu
cd "$(dirname "$(readlink -f "$0")")/.."
./goheap --build
python3 bench/stress.py "${1-10000}" "${2-1}"

folder=$(mktemp -d)
chmod 755 "$folder"
trap 'rm -rf "$folder"' EXIT
program=$(readlink -f crates/goheap/out/goheap)
cp "$program" "$folder/goheap"
./goheap gen 7 20000 | sed '2 s/heap 128/heap 8/' >"$folder/trace"

# ended NAME STATUS: whether a run ended as the statuses say, with its report judged or nothing written.
ended() {
  if [ "$2" -eq 0 ]; then
    [ "$(cat "$folder/trace" "$folder/report" | ./goheap check)" = "check ok" ] && return
  elif [ "$2" -eq 7 ]; then
    [ ! -s "$folder/report" ] && return
  fi
  echo "bench/stress.sh: $1: status $2" >&2
  exit 1
}

refused=0
answered=0
for ((megabytes = 3; megabytes <= 600 && answered < 5; megabytes += 3)); do
  (ulimit -v $((megabytes * 1024)) && "$folder/goheap" classes >"$folder/classes" 2>/dev/null) || continue
  status=0
  (ulimit -v $((megabytes * 1024)) && timeout 60 "$folder/goheap" run --background=4 <"$folder/trace" >"$folder/report" 2>/dev/null) || status=$?
  ended "within $megabytes MB" "$status"
  if [ "$status" -eq 7 ]; then refused=$((refused + 1)); else answered=$((answered + 1)); fi
done
echo "within 3 to $((megabytes - 3)) MB of address space: $refused runs ended with status 7, then $answered with a sound report"

if [ "$(id -u)" -eq 0 ]; then
  status=0
  timeout 60 setpriv --reuid 65534 --clear-groups bash -c "ulimit -u 1 && exec '$folder/goheap' run --background=4" \
    <"$folder/trace" >"$folder/report" 2>"$folder/said" || status=$?
  ended "where no thread can be made" "$status"
  echo "where no thread can be made: status $status"
fi
