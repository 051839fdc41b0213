# What the scripts that time goheap have in common; they read this file at their start. It goes to the top of the repository, has the
# program proved and built, and has a folder for what they make, which goes with them.
cd "$(dirname "$(readlink -f "${BASH_SOURCE[0]}")")/.."
./goheap --build
folder=$(mktemp -d)
trap 'rm -rf "$folder"' EXIT

# time_of COMMAND NAME: adds the microseconds that the function run_COMMAND takes on NAME to those noted before.
time_of() {
  local start=${EPOCHREALTIME/./}
  "run_$1" "$2"
  local end=${EPOCHREALTIME/./}
  echo $((end - start)) >>"$folder/$1.$2.times"
}

# median COMMAND NAME: the median of the microseconds noted.
median() { sort -n "$folder/$1.$2.times" | sed -n "$((($(wc -l <"$folder/$1.$2.times") + 1) / 2))p"; }

# instructions NAME [WORD]: those of a call of the program on NAME, with this word (default: run), as callgrind counts them.
instructions() {
  valgrind --tool=callgrind --callgrind-out-file="$folder/callgrind" crates/goheap/out/goheap "${2:-run}" <"$folder/$1" 2>&1 >/dev/null |
    sed -n 's/.*Collected : //p'
}

# peak NAME WORD..: the most kilobytes that a call of goheap with these words has at once on NAME.
peak() {
  local input=$folder/$1
  shift
  /usr/bin/time -f %M -o "$folder/peak" ./goheap "$@" <"$input" >/dev/null
  tail -n 1 "$folder/peak"
}
