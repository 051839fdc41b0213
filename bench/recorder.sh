#!/usr/bin/env bash
# recorder.sh [REQUESTS]: what recording costs. First the programs that record themselves beside the same ones plain, by processor time
# (recorder.py): gofmt, a server with eight clients, and a program that only allocates small objects, on one processor and on four. Then
# the HTTP server of examples/programs/server: how many seconds of it fit into a recording of 1 GB; and by its log, the time beside a plain
# run, the log's bytes an allocation, and how many megabytes of it `record` reads in a second of processor time, by the median of five runs,
# beside `wc -l`. Needs a Go of 1.19 to 1.21 (GO names it; default: go).
set -eu

cd "$(dirname "$(readlink -f "$0")")/.."
requests=${1:-500}
go=${GO:-go}
folder=$(mktemp -d)
trap 'rm -rf "$folder"' EXIT
python3 bench/recorder.py "$go"
(cd examples/programs/server && "$go" build -o "$folder/server" .)
(cd examples/programs/server && ../../../recorder/record -- "$go" build -o "$folder/recorded" .)

# What a second of the server takes in a recording: it ends in a collection, which tells when that was.
recorder/record -o "$folder/server.heap" -- "$folder/recorded" -requests $((20 * requests)) >"$folder/out" 2>&1
ran=$(recorder/facts --csv "$folder/server.heap" | awk -F, '$1 + 0 { at = $2 } END { print at + 0 }')
used=$(stat -c %s "$folder/server.heap")
awk -v ran="$ran" -v used="$used" -v requests=$((20 * requests)) 'BEGIN {
  printf "the server, one client, %d requests: %.1f s and %.1f MB of recording; %.0f s of it and %d requests fit into 1 GB\n", requests, ran, used / 1e6,
    ran * 1e9 / used, requests * 1e9 / used
}'

# seconds WORDS: the processor seconds of a command, its own and the system's.
seconds() {
  python3 - "$@" <<'PYTHON'
import os, subprocess, sys
subprocess.run(sys.argv[1:], stdout=subprocess.DEVNULL, stderr=subprocess.DEVNULL, check=True)
spent = os.times()
print(spent.children_user + spent.children_system)
PYTHON
}
median() { sort -n | sed -n 3p; }
five() { for _ in 1 2 3 4 5; do seconds "$@"; done | median; }

plain=$(five "$folder/server" -requests "$requests")
export log=$folder/server.log
logged=$(seconds bash -c 'GODEBUG=allocfreetrace=1 "$0" -requests "$1" 2>"$log"' "$folder/server" "$requests")
bytes=$(stat -c %s "$log")
objects=$(grep -c '^tracealloc(' "$log")
read=$(five recorder/record "$log" --program "$folder/server" --stacks "$folder/stacks" --output "$folder/trace")
lines=$(five wc -l "$log")
awk -v plain="$plain" -v logged="$logged" -v bytes="$bytes" -v objects="$objects" -v read="$read" -v lines="$lines" 'BEGIN {
  printf "%d allocations, %d bytes of log each\n", objects, bytes / objects
  printf "a run that is logged takes %.0f times the processor time of a plain one\n", logged / plain
  printf "record reads %.0f MB a processor second, and takes %.0f times as long as wc -l\n", bytes / 1e6 / read, read / lines
}'
