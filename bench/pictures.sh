#!/usr/bin/env bash
# pictures.sh [PROGRAM..]: draws the pictures of the Go programs under examples/programs (or of those named) anew, as docs/recording.md says: builds
# each, records it, runs goheap on its trace and draws the report. The picture of `leak`, which the README shows, is docs/leak.svg; each other one is
# PROGRAM.svg beside the programs. From run to run they differ a little, as the programs' own runs do. Needs a Go of 1.19 to 1.21 (GO names it;
# default: go).
set -eu

cd "$(dirname "$(readlink -f "$0")")/.."
top=$PWD
go=${GO:-go}
sources=$("$go" env GOROOT)/src/
folder=$(mktemp -d)
trap 'rm -rf "$folder"' EXIT

# record PROGRAM [OPTION..]: makes the files trace, stacks and report of a run.
record() {
  local program=$1 own=$top/examples/programs/$1
  shift
  (cd "$own" && "$go" build -o "$folder/$program" .)
  (cd "$folder" && "$top/recorder/record" --keep-last --trim "$sources" --trim "$own/" "$@" -- "./$program" >"$folder/said")
  ./goheap run --each <"$folder/trace" >"$folder/report"
}

# draw PICTURE TITLE [OPTION..]: draws what was recorded last.
draw() {
  local picture=$1 title=$2
  shift 2
  recorder/picture "$folder/report" --trace "$folder/trace" --stacks "$folder/stacks" --title "$title" "$@" -o "$picture"
  echo "$picture"
}

[ $# -gt 0 ] || set -- leak fragmented healthy import
for program; do
  case $program in
  leak) record leak && draw docs/leak.svg 'A leak' ;;
  fragmented) record fragmented --chunks 1 && draw examples/programs/fragmented.svg 'A fragmented region' ;;
  healthy) record healthy && draw examples/programs/healthy.svg 'A healthy heap' ;;
  import) GOMAXPROCS=1 record import && draw examples/programs/import.svg 'An import that keeps one order of fifty' --pins ;;
  *) echo "no program $program with a picture" >&2 && exit 2 ;;
  esac
done
