#!/usr/bin/env bash
# Runs goheap on real streams: ones that fail, end early or come in pieces. Each run must end by itself with its status, never by
# a signal, and what it says on standard error must be whole lines. Of a closed pipe the launcher says nothing there.
set -u
cd "$(dirname "$(readlink -f "$0")")"
folder=$(mktemp -d)
trap 'rm -rf "$folder"' EXIT
goheap=../goheap
usage="usage: goheap run [--background=N] [--each] / check [--pieces=N] / gen SEED OBJECTS / demo SEED OBJECTS / classes / watch N / heap"
failed=0
"$goheap" --build || exit 1

# wants NAME STATUS GOT TEXT: the run ended with that status, and standard error has that text, whole and alone.
wants() {
  local name=$1 status=$2 got=$3 text=$4
  if [ "$got" -ne "$status" ]; then
    echo "$name: status $got, not $status" >&2
    failed=1
  fi
  if [ "$(cat "$folder/said"; echo .)" != "${text:+$text
}." ]; then
    echo "$name: it said: $(head -c 200 "$folder/said")" >&2
    failed=1
  fi
}

# trace OBJECTS: so many objects of 8 bytes.
trace() {
  echo "goheap 1"
  echo "heap 128 procs 1 rate 0 seed 1 goal 65536"
  awk -v objects="$1" 'BEGIN { for (i = 0; i < objects; i++) print "a 0 8 n 1" }'
  echo "end"
}

# longest EXTRA: a trace of 67108864 bytes and so many more. It has as many objects as a trace may have, of which none finds room,
# and then mark ends that mark each of the later ones by a line of 16 bytes. The distances of the last two fill up the text.
longest() {
  awk -v most="$((67108864 + $1))" '
    function put(line) { print line; bytes += length(line) + 1; left = most - bytes - 4 }
    BEGIN {
      put("goheap 1")
      put("heap 1 procs 1 rate 0 seed 1 goal 512")
      for (i = 0; i < 1000000; i++) put("a 0 1099511627776 s " 100000 + i % 900000)
      while (left >= 40) {
        put("gc 1099511627776")
        for (i = 100000; i < 1000000 && left >= 21; i++) put("m " i " " i)
      }
      if (left > 17) put("gc 1")
      digits = 1
      while (left > length("gc " digits) + 1) digits = digits "0"
      put("gc " digits)
      print "end"
    }'
}

trace 100000 >"$folder/large"

"$goheap" run <"$folder/large" 2>"$folder/said" | true
wants "a closed pipe" 6 "${PIPESTATUS[0]}" ""

"$goheap" run <one-object.trace >/dev/full 2>"$folder/said"
wants "a full disk" 6 $? "goheap: write fault"

"$goheap" run <"$folder" >"$folder/wrote" 2>"$folder/said"
wants "a folder as input" 5 $? "goheap: read fault"

"$goheap" run <&- >"$folder/wrote" 2>"$folder/said"
wants "a closed input" 5 $? "goheap: read fault"

"$goheap" run <span-reused.trace >/dev/full 2>/dev/full
status=$?
: >"$folder/said"
wants "both outputs full" 6 $status ""

# The words that read nothing: a closed pipe, a full disk, both outputs full, and an input that cannot be read.
for words in classes "gen 1 100000" "demo 1 1000"; do
  # shellcheck disable=SC2086 # the words are several
  {
    # A text that fits into the pipe is written before the other end is closed.
    "$goheap" $words 2>"$folder/said" | true
    status=${PIPESTATUS[0]}
    if [ "$words" = "gen 1 100000" ] || [ "$status" -ne 0 ]; then
      wants "$words into a closed pipe" 6 "$status" ""
    fi
    "$goheap" $words >/dev/full 2>"$folder/said"
    wants "$words onto a full disk" 6 $? "goheap: write fault"
    "$goheap" $words >/dev/full 2>/dev/full
    status=$?
    : >"$folder/said"
    wants "$words with both outputs full" 6 $status ""
    "$goheap" $words <&- >"$folder/wrote" 2>"$folder/said"
    wants "$words with a closed input" 0 $? ""
    "$goheap" $words <"$folder" 2>"$folder/said" | cmp -s - "$folder/wrote" || { echo "$words: another text at each run" >&2; failed=1; }
    wants "$words with a folder as input" 0 "${PIPESTATUS[0]}" ""
  }
done
"$goheap" gen 1 1000000 >"$folder/made"
[ "$(grep -c '^a ' "$folder/made")" -eq 1000000 ] || { echo "gen 1 1000000: other objects" >&2; failed=1; }
"$goheap" gen 1 1000001 >"$folder/wrote" 2>"$folder/said"
wants "a million objects and one" 2 $? "$usage"
[ -s "$folder/wrote" ] && { echo "a million objects and one: something was written" >&2; failed=1; }

"$goheap" run $'--each\xff' <one-object.trace >"$folder/wrote" 2>"$folder/said"
wants "a word that is no UTF-8" 2 $? "$usage"
[ -s "$folder/wrote" ] && { echo "a word that is no UTF-8: something was written" >&2; failed=1; }

mkfifo "$folder/fifo"
awk '{ for (i = 1; i <= length($0); i++) { printf "%s", substr($0, i, 1); fflush() } print ""; fflush() }' span-reused.trace >"$folder/fifo" &
"$goheap" run <"$folder/fifo" >"$folder/wrote" 2>"$folder/said"
wants "a byte at a time" 0 $? ""
cmp -s "$folder/wrote" span-reused.report || { echo "a byte at a time: another report" >&2; failed=1; }
wait

# The file is cut while it is read, before or behind where the reader is; either way the run ends in order.
cp "$folder/large" "$folder/shrinking"
"$goheap" run <"$folder/shrinking" >"$folder/wrote" 2>"$folder/said" &
truncate -s 500000 "$folder/shrinking"
wait $!
status=$?
if [ $status -ne 0 ] && [ $status -ne 3 ]; then
  echo "a file that shrinks: status $status" >&2
  failed=1
fi

longest 0 >"$folder/longest"
[ "$(wc -c <"$folder/longest")" -eq 67108864 ] || failed=1
"$goheap" run <"$folder/longest" >"$folder/wrote" 2>"$folder/said"
wants "67108864 bytes" 0 $? ""

longest 1 >"$folder/longest"
[ "$(wc -c <"$folder/longest")" -eq 67108865 ] || failed=1
"$goheap" run <"$folder/longest" >"$folder/wrote" 2>"$folder/said"
wants "67108865 bytes" 3 $? "goheap: trace line $(wc -l <"$folder/longest"): limit bytes"
[ -s "$folder/wrote" ] && { echo "67108865 bytes: something was written" >&2; failed=1; }

exit $failed
