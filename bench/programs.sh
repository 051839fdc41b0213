#!/usr/bin/env bash
# What the README and docs/recording.md say of goheap beside real Go programs. It builds gofmt from Go's own sources, logs a run over go/printer on
# one processor and one on four, makes traces of the versions 1 to 3 of each log, and one more of version 3 in which tiny objects have their own sizes,
# and prints what recorder/compare counts: objects, those in the very slot, at each mark end the spans of the program and of the model, and from how
# few to how many per cent the model has fewer. And it records examples/programs/import, and prints its last words on its heap, what `go tool pprof`
# finds live, and what recorder/pins says of its spans and of the function that pins most. On four processors, and of free pages, the figures differ
# from run to run. Needs a Go of 1.19 to 1.21 (GO names it; default: go).
set -eu

cd "$(dirname "$(readlink -f "$0")")/.."
top=$PWD
go=${GO:-go}
sources=$("$go" env GOROOT)/src
folder=$(mktemp -d)
trap 'rm -rf "$folder"' EXIT
./goheap --build

(cd "$sources/cmd/gofmt" && "$go" build -o "$folder/gofmt" .)
for processors in 1 4; do
  GOMAXPROCS=$processors GOGC=20 GODEBUG=allocfreetrace=1 "$folder/gofmt" -l "$sources/go/printer" 2>"$folder/log" >/dev/null
  for form in "1" "2" "3" "3 --no-tiny-blocks"; do
    # shellcheck disable=SC2086 # the words are several
    recorder/record "$folder/log" --version $form --program "$folder/gofmt" --stacks "$folder/stacks" --trim "$sources/" --output "$folder/trace"
    ./goheap run <"$folder/trace" >"$folder/report"
    recorder/compare "$folder/log" "$folder/trace" "$folder/report" | awk -v name="gofmt on $processors processor(s), version $form" '
      $1 == "objects" || /^same slot/ || /^tiny, in/ {
        what = $0; sub(/ +[0-9]+ .*/, "", what); value = substr($0, length(what) + 1); sub(/^ +/, "", value); print name ", " what ": " value
      }
      ends && NF == 6 {
        print name ", mark end " $1 ", spans of the program / of the model / slot sizes with as many / of: " $2 " / " $3 " / " $4 " / " $6
        fewer = 100 * ($2 - $3) / $2
        if (!rows++ || fewer < least) least = fewer
        if (rows == 1 || fewer > most) most = fewer
      }
      $1 == "mark" { ends = 1 }
      END { if (rows) printf "%s, fewer spans in the model: %.1f to %.1f %%\n", name, least, most }'
  done
done

own=$top/examples/programs/import
(cd "$own" && "$go" build -o "$folder/import" .)
cd "$folder"
GOMAXPROCS=1 "$top/recorder/record" --keep-last --trim "$sources/" --trim "$own/" -- ./import >said
"$top/goheap" run <trace >report
sed -n '/^kept / { s/  */ /g; s/^kept /import, kept: /p }' said
"$go" tool pprof -top import heap 2>/dev/null | awk '/ total$/ { print "import, pprof: " $0 }'
"$top/recorder/pins" trace report --stacks stacks --functions --top 1 | awk '
  /^Mark end/ { print "import, pins: " $0 }
  / live objects, as asked for$| backed; in Go/ { sub(/^ +/, ""); print "import, pins: " $0 }
  / encoding\/csv/ { sub(/^ +/, ""); gsub(/  +/, " "); print "import, pins, own / pinned / % / ratio / spans / cum own / cum pinned / cum% / function: " $0 }'
