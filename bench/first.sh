#!/usr/bin/env bash
# What a first look costs: the seconds until `./goheap --help`, `--version` and `demo 1 10000`, by a build without proofs, have answered
# in a fresh clone on two processors; and the minutes that `./goheap --build` takes from nothing on one, two and four, reckoned from the
# proofs' minutes in docs/gate.md (launcher/build.py). CLONE names the repository to clone (default: this one).
set -eu

cd "$(dirname "$(readlink -f "$0")")/.."
folder=$(mktemp -d)
trap 'rm -rf "$folder"' EXIT

git clone -q "${CLONE:-$PWD}" "$folder/goheap"

# seconds WORDS: has the launcher answer them on two processors, and prints the seconds.
seconds() {
  local start=${EPOCHREALTIME/./}
  (cd "$folder/goheap" && taskset -c 0,1 ./goheap "$@" >"$folder/said" 2>"$folder/errors")
  awk -v time=$((${EPOCHREALTIME/./} - start)) 'BEGIN { printf "%.2f", time / 1000000 }'
}

echo "./goheap --help in a fresh clone, on two processors: $(seconds --help) s"
echo "./goheap --version: $(seconds --version) s"
echo "the first answer in a fresh clone, on two processors: $(seconds demo 1 10000 | awk '{ printf "%.0f", $1 }') s"
grep -q '^check ok$' "$folder/said"
for processors in 1 2 4; do
  echo "./goheap --build from nothing, on $processors processors: $(python3 launcher/build.py --minutes goheap $processors) minutes (reckoned)"
done
