#!/usr/bin/env bash
# test.sh [leak]: ends with status 1 where a function of the program keeps over 64 KB more behind 1,000 requests than behind 300, since nothing
# should stay for each request; and with 0 else. `./test.sh leak` fails. Needs a Go of 1.19 to 1.21 (GO names it; default: go).
set -eu
cd "$(dirname "$(readlink -f "$0")")"
tools=../../../recorder
folder=$(mktemp -d)
trap 'rm -rf "$folder"' EXIT
"${GO:-go}" build -o "$folder/program" .
for requests in 300 1000; do
  mkdir "$folder/$requests"
  "$tools/record" --keep-last --trim "$PWD/" --output "$folder/$requests/trace" --stacks "$folder/$requests/stacks" -- "$folder/program" "$requests" "$@"
done
"$tools/leaks" --base "$folder/300" "$folder/1000" --fail-over 64KB
