#!/usr/bin/env bash
# Microseconds, of processor time, that it takes to release a whole region of 128 chunks in scavenging steps of 64 pages, which
# are 1024, and nanoseconds of one step; with those of a take and a give of all its pages. All are measured in this one run. Each
# figure is the least of five; what the takes and gives cost is taken off the release. CALLS (default 3000) is the number of rounds.
set -euo pipefail
cd "$(dirname "$0")/../crates/bench"
rt run <stdin >/dev/null 2>&1
calls=${CALLS:-3000}
TIMEFORMAT=%U

# seconds WORDS..: the least processor time of five runs.
seconds() {
    for _ in 1 2 3 4 5; do
        { time ./out/bench pages "$@" >/dev/null; } 2>&1
    done | sort -n | head -n 1
}

refills=$(seconds refills "$calls")
releases=$(seconds releases "$calls")
own=$(seconds refills 0)
awk -v f="$refills" -v r="$releases" -v o="$own" -v c="$calls" 'BEGIN {
    printf "%-28s %10.1f us\n", "take and give of a region", (f - o) / c * 1e6
    printf "%-28s %10.1f us\n", "release of a region", (r - f) / c * 1e6
    printf "%-28s %10.1f ns\n", "one step", (r - f) / c / 1024 * 1e9
}'
