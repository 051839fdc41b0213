#!/usr/bin/env bash
# Runs goheap on each trace of this folder and has what it prints judged, and the report beside the trace as well. Without background
# sweepers it compares the two, where one worker has each cycle to itself, so that every schedule gives the same report; with `--each`
# it compares with the report that ends in `.each`, where there is one. A report that ends in `.cached` is one of a heap with page caches:
# it must be sound, whole and in pieces, and refused where the trace is of version 1. A report with exchanged addresses must be refused,
# and so must three that are no sound report of the smallest trace, and two of objects that share blocks. Words that read nothing print the file of their name that ends in `.lines`, the
# same at each run and within a minute. Each line of what a watcher sees must be one of the file that ends in `.watched`, and the last one its last:
# which others there are is up to who comes first. Of the recorded trace of a real program it compares the totals.
set -u
cd "$(dirname "$0")" || exit 1
../goheap --build || exit 1
failed=0
# Two processors have events in one cycle here: which of them comes first is the schedule's.
several=' side-by-side two-processors page-caches '
# judged NAME TRACE REPORT: the report must be a sound one of the trace.
judged() {
  if [ "$(cat "$2" "$3" | ../goheap check)" != "check ok" ]; then
    echo "$1: refused" >&2
    failed=1
  fi
}
for trace in *.trace; do
  name=${trace%.trace}
  if [[ $several != *" $name "* ]] && ! diff <(../goheap run --background=0 <"$trace") "$name.report" >/dev/null; then
    echo "$trace: another report" >&2
    failed=1
  fi
  judged "$name.report" "$trace" "$name.report"
  for background in 0 1 4; do
    judged "$trace, $background background sweepers" "$trace" <(../goheap run --background=$background <"$trace")
  done
done
for each in *.each; do
  trace=${each%.each}.trace
  if ! diff <(../goheap run --background=0 --each <"$trace") "$each" >/dev/null; then
    echo "$trace: another report with --each" >&2
    failed=1
  fi
  judged "$each" "$trace" "$each"
done
for watched in *.watched; do
  trace=${watched%.watched}.trace
  printed=$(../goheap watch 1 <"$trace")
  seen=$(grep '^w ' <<<"$printed")
  judged "$watched" "$trace" <(grep -v '^w ' <<<"$printed")
  if [ "${seen##*$'\n'}" != "$(tail -n 1 "$watched")" ] || grep -vxqF -f "$watched" <<<"$seen"; then
    echo "$watched: another profile is seen" >&2
    failed=1
  fi
done
for cached in *.cached; do
  trace=${cached%.cached}.trace
  judged "$cached" "$trace" "$cached"
  if [ "$(cat "$trace" "$cached" | ../goheap check --pieces=4)" != "check ok" ]; then
    echo "$cached: refused in pieces" >&2
    failed=1
  fi
  if [ "$(sed '1s/.*/goheap 1/' "$trace" | cat - "$cached" | ../goheap check 2>&1)" != "goheap: report line 8: rule 2" ]; then
    echo "$cached: not refused by rule 2 in version 1" >&2
    failed=1
  fi
done
if [ "$(cat pointers-apart.trace pointers-apart.exchanged | ../goheap check 2>&1)" != "goheap: report line 1: rule 4" ]; then
  echo "pointers-apart.exchanged: not refused by rule 4" >&2
  failed=1
fi
for lines in *.lines; do
  words=${lines%.lines}
  for run in first second; do
    # shellcheck disable=SC2086 # the words are several
    if ! timeout 60 ../goheap ${words//-/ } </dev/null 2>&1 | cmp -s - "$lines"; then
      echo "$lines: other lines at the $run run" >&2
      failed=1
    fi
  done
done
# refused TRACE REPORT WORDS: `check` refuses this report of the trace with status 4 and these words.
refused() {
  local said
  said=$({ cat "$1" && printf '%s' "$2"; } | ../goheap check 2>&1)
  if [ $? -ne 4 ] || [ "$said" != "goheap: $3" ]; then
    echo "$1: a report is not refused by $3" >&2
    failed=1
  fi
}
refused one-object.trace $'j 0 0 take 0 1 6\no 0 0xc000000000\nt 3 1 0\nend\n' 'report line 2: malformed'
refused one-object.trace '' 'report line 1: ends early'
refused one-object.trace $'o 0 0xc000000000\nj 0 0 take 0 1 6\nend\n' 'report line 3: rule 8'
# What shares a block keeps it, and stands apart in it.
refused shared-blocks.trace "$(sed 's/^s 1 0 2 1$/s 1 0 0 3/' shared-blocks.report)"$'\n' 'report line 12: rule 7'
refused shared-blocks.trace "$(sed 's/^o 1 .*/o 1 0xc000000000/' shared-blocks.report)"$'\n' 'report line 2: rule 10'
unpacked() { python3 -c 'import lzma, shutil, sys; shutil.copyfileobj(lzma.open(sys.argv[1]), sys.stdout.buffer)' "$1"; }
for packed in real/*.trace.xz; do
  if ! diff <(unpacked "$packed" | ../goheap run | grep '^t ') "${packed%.trace.xz}.totals" >/dev/null; then
    echo "$packed: other totals" >&2
    failed=1
  fi
done
exit $failed
