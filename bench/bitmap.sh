#!/usr/bin/env bash
# Nanoseconds of processor time of one Chunk::find, at five sizes of run: in an empty chunk, in one whose pages are free
# and taken by turns, in one with two free pages at its end, and in one where every 32nd page is taken, which is hard
# for runs of 32 pages. All are measured in this one run. Each figure is the least of five, less the least of the loop
# alone. ROUNDS (default 2000000) is the number of searches of each.
set -euo pipefail
cd "$(dirname "$0")/../crates/bench"
rt run <stdin >/dev/null 2>&1
rounds=${ROUNDS:-2000000}
TIMEFORMAT=%U

# seconds FILLING N: the least processor time of that many rounds.
seconds() {
    for _ in 1 2 3 4 5; do
        { time ./out/bench bitmap "$1" "$2" "$rounds" >/dev/null; } 2>&1
    done | sort -n | head -n 1
}

printf '%-10s %8s %8s %8s %8s %8s\n' chunk n=1 n=2 n=32 n=64 n=512
for filling in empty checkered full gapped; do
    printf '%-10s' "$filling"
    for n in 1 2 32 64 512; do
        own=$(seconds alone "$n")
        whole=$(seconds "$filling" "$n")
        awk -v w="$whole" -v o="$own" -v r="$rounds" 'BEGIN { printf " %8.1f", (w - o) / r * 1e9 }'
    done
    echo
done
