#!/usr/bin/env bash
# Nanoseconds of processor time of one call of the sampled profile, and its instructions, as callgrind counts them: of a
# sampler at a rate in bytes, and of a count of an allocation or a free over so many buckets in turn. All are measured in
# this one run. Each time is the least of nine, less the least of what the same words cost with no calls. CALLS (default
# 1000000) is the number of calls; the instructions are those of a tenth as many.
set -euo pipefail
cd "$(dirname "$0")/../crates/bench"
rt run <stdin >/dev/null 2>&1
calls=${CALLS:-1000000}
TIMEFORMAT=%U

# seconds WORDS..: the least processor time of nine runs.
seconds() {
    for _ in 1 2 3 4 5 6 7 8 9; do
        { time ./out/bench profile "$@" >/dev/null; } 2>&1
    done | sort -n | head -n 1
}

# instructions WORDS..: those of one run.
instructions() {
    valgrind --tool=callgrind --callgrind-out-file=/dev/null ./out/bench profile "$@" 2>&1 >/dev/null |
        sed -n 's/.*Collected : //p'
}

printf '%-36s %8s %14s\n' '' ns instructions
while read -r work number; do
    whole=$(seconds "$work" "$number" "$calls")
    own=$(seconds "$work" "$number" 0)
    counted=$(instructions "$work" "$number" "$((calls / 10))")
    alone=$(instructions "$work" "$number" 0)
    awk -v m="$work $number" -v w="$whole" -v o="$own" -v c="$calls" -v i="$counted" -v a="$alone" 'BEGIN {
        printf "%-36s %8.1f %14.1f\n", m, (w - o) / c * 1e9, (i - a) / (c / 10)
    }'
done <<'WORDS'
sample 1
sample 512
sample 524288
allocated 1
allocated 1000
allocated 1000000
freed 1
freed 1000
freed 1000000
WORDS
