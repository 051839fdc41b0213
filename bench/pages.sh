#!/usr/bin/env bash
# Nanoseconds of one call of Pages on 128 chunks, of processor time, beside those of the search that stood before the levels
# of sums (a copy in the bench alone, which keeps no journal and no spans). All are measured in this one run: a take or a give of a
# span of mixed size, and a search for a run of mixed size, where 10, 50, 90 and 99 per cent of the pages are taken; and the
# same for one page where the last page alone is free. Each figure is the least of five, less the least of what the same words cost
# with no calls. CALLS (default 1000000) is the number of calls, and of the search before a tenth.
set -euo pipefail
cd "$(dirname "$0")/../crates/bench"
rt run <stdin >/dev/null 2>&1
calls=${CALLS:-1000000}
TIMEFORMAT=%U

# seconds WORDS..: the least processor time of five runs.
seconds() {
    for _ in 1 2 3 4 5; do
        { time ./out/bench pages "$@" >/dev/null; } 2>&1
    done | sort -n | head -n 1
}

# each CALLS WORDS..: nanoseconds of one of that many calls.
each() {
    local calls=$1
    shift
    local whole own
    whole=$(seconds "$@" "$calls")
    own=$(seconds "$@" 0)
    awk -v w="$whole" -v o="$own" -v c="$calls" 'BEGIN { printf "%.1f", (w - o) / c * 1e9 }'
}

# beside NAME WORDS..: a line with the figure of the levels, that of before, and their ratio.
beside() {
    local name=$1 now before
    shift
    now=$(each "$calls" "$@")
    before=$(each "$((calls / 10))" before "$@")
    awk -v m="$name" -v n="$now" -v b="$before" 'BEGIN { printf "%-32s %10.1f %10.1f %8.2f\n", m, n, b, n / b }'
}

printf '%-32s %10s %10s %8s\n' '' levels before ratio
for percent in 10 50 90 99; do
    beside "take or give, $percent % taken" churn "$percent"
    beside "find, $percent % taken" finds "$percent"
done
beside 'take or give of the last page' ends
beside 'find(1) at the last page' last
