#!/usr/bin/env bash
# Nanoseconds of processor time of a call of the shared span table, beside those of the same move of the ownership core: a span is put
# into a cache and taken out of it, again and again. Both are measured in this one run. Each figure is the least of five, less the least
# without a round. ROUNDS (default 5000000) is how often.
set -eu
cd "$(dirname "$0")/.."
bin=crates/bench/out/bench
(cd crates/bench && rt run <stdin >/dev/null)
rounds=${ROUNDS:-5000000}
TIMEFORMAT=%3U

# the least processor seconds of five runs
seconds() {
  local best=1000000 one
  for _ in 1 2 3 4 5; do
    one=$({ time "$bin" table "$@" >/dev/null; } 2>&1)
    best=$(awk -v a="$best" -v b="$one" 'BEGIN { print (a < b ? a : b) }')
  done
  echo "$best"
}

# the nanoseconds of one call or move
each() {
  awk -v w="$(seconds "$1" "$rounds")" -v o="$(seconds "$1" 0)" -v r="$rounds" 'BEGIN { print (w - o) / (2 * r) * 1e9 }'
}

core=$(each core)
table=$(each table)
awk -v c="$core" -v t="$table" 'BEGIN { printf "a move of the core %.1f ns, the same call of the table %.1f ns: %.1f ns more\n", c, t, t - c }'
