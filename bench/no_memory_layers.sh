#!/usr/bin/env bash
# Refuses each allocation of the layers' rows in turn: of the tests of central_lists_tests, sweeper_tests and proc_cache_tests, which make the calls of
# central_lists, sweeper, proc_cache and large_objects. Where memory runs out in a call its test makes it again, says so on a line of its
# own, and holds this answer and those of the calls behind it to what they have to be. So each refusal must pass its test. It prints the
# number of refusals and those of them in which a call was made again; in the others a test's own scene found no memory and was made anew, or
# a list that could not double grew by less. It ends with status 1 where a test failed, or where a crate's calls were never made again.
#
# Each test runs once, and splits in two at each allocation (`bench/refuse_each.c`): the half that is refused goes on behind the rows that came
# before, and ends two rows later, since each row has a table of its own. What is left out are rows that don't have the refusal.
# Name some of the three crates to try these alone. It takes a C compiler.
set -euo pipefail
cd "$(dirname "$(readlink -f "$0")")/.."
folder=$(mktemp -d)
trap 'rm -rf "$folder"' EXIT
cc -shared -fPIC -O1 -o "$folder/refuse_each.so" bench/refuse_each.c -ldl
failed=0

# The bytes from which on an allocation is a row's table.
table=1000000

# each TESTS NAME: refuses each allocation of this test in turn.
each() {
  local tests=$1 name=$2 status=0 count again
  env TABLE=$table WROTE="$folder/wrote" SAID="$folder/said" LD_PRELOAD="$folder/refuse_each.so" \
    "$tests" "$name" >"$folder/whole" 2>&1 9>"$folder/refused" || status=$?
  count=$(wc -l <"$folder/refused")
  again=$(awk '$3 == 1' "$folder/refused" | wc -l)
  if [ $status -ne 0 ]; then
    echo "$name: refused allocation: $(tail -n 1 "$folder/refused"), it said: $(head -c 300 "$folder/said")" >&2
    failed=1
  fi
  echo "  $name: $count allocations refused in turn, a call made again in $again runs"
  made_again=$((made_again + again))
}

crates=("$@")
[ $# -gt 0 ] || crates=(central_lists_tests sweeper_tests proc_cache_tests)
for crate in "${crates[@]}"; do
  echo "$crate:"
  (cd "crates/$crate" && rt test) >"$folder/built" 2>&1 || {
    cat "$folder/built" >&2
    exit 1
  }
  made_again=0
  for name in $("crates/$crate/out/${crate}_tests" --list | sed -n 's/: test$//p'); do
    # The calls of this test find all sets empty, and take no memory then. So only its scene can be refused, and with that the test itself
    # ends without memory. The rows beside it refuse the same call where it takes some.
    [ "$name" != tests::new_table_has_no_span ] || continue
    each "crates/$crate/out/${crate}_tests" "$name"
  done
  if [ $made_again -eq 0 ]; then
    echo "$crate: no call found no memory" >&2
    failed=1
  fi
done
exit $failed
