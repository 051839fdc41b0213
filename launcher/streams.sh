# shellcheck shell=bash
# The files that words name. Those of `run`, `watch`, `check` and `heap` become the program's standard input, and the file of `-o` has what
# is written, whole or not at all. Sourced by `goheap`.

# Parts the words into `words`, which are the program's, the `files` that it is to read, and the `target` to write to. Where they are not
# as launcher/words.txt has them, all stay the program's, which refuses them.
part_words() {
  local given=("$@") word=$1 most
  case $word in
  run | watch) most=1 ;;
  check | heap) most=2 ;;
  demo | gen | classes) most=0 ;;
  *) words=("$@") && return ;;
  esac
  words=("$word") && shift
  while [ $# -gt 0 ]; do
    case $1 in
    -o | --output) [ $# -gt 1 ] && target=$2 && shift || words+=("$1") ;;
    --output=?*) target=${1#*=} ;;
    --background) words+=("$1") && [ $# -gt 1 ] && shift && words+=("$1") ;;
    - | [!-]*) [ "$most" -eq 0 ] || [ "$word ${#words[@]}" = 'watch 1' ] && words+=("$1") || files+=("$1") ;;
    *) words+=("$1") ;;
    esac
    shift
  done
  if [ ${#files[@]} -gt "$most" ] || [ "${files[*]}" = '- -' ]; then
    words=("${given[@]}") files=() target=''
  fi
}

# What packed a file that begins with these bytes.
packer_of() {
  case $1 in
  $'\x1f\x8b'*) echo gzip ;;
  $'\xfd7zXZ'*) echo xz ;;
  $'\x28\xb5\x2f\xfd'*) echo zstd ;;
  BZh*) echo bzip2 ;;
  esac
}

# What a text is that begins so.
kind_of() {
  case $1 in
  'goheap '*) echo 'a trace' ;;
  'o 0 '* | 'end'*) echo 'a report' ;;
  '# goheap stacks'*) echo 'a stacks file' ;;
  'tracealloc('*) echo 'a log' ;;
  'heap profile: '*) echo 'a heap profile' ;;
  esac
}

# What to do with a file that is another kind than a word wants.
way_out() {
  case $2 in
  'a log') echo "recorder/record $1 makes a trace of it" ;;
  'a report') [[ ${words[0]} = @(check|heap) ]] && echo 'the trace comes first' || echo "goheap check TRACE $1 judges it" ;;
  'a trace') echo "goheap run $1 makes a report of it" ;;
  *) echo "goheap help ${words[0]} says what is read" ;;
  esac
}

# fail STATUS TEXT: says why there is no answer, and ends.
fail() {
  echo "goheap: $2" >&2
  exit "$1"
}

# look_at FILE WANTED STATUS: ends with what is wrong with a file where it can be told from its name and its first bytes; with the status where
# it is not what is wanted. A pipe is left as it is, since it can be read once.
look_at() {
  local LC_ALL=C front='' packer kind
  [ "$1" != - ] || return
  [ -e "$1" ] || fail 5 "$1: there is no such file"
  [ ! -d "$1" ] || fail 5 "$1: a folder"
  [ -r "$1" ] || fail 5 "$1: not to be read by you"
  [ -f "$1" ] || return
  IFS= read -r -d '' -n 16 front <"$1"
  packer=$(packer_of "$front")
  [ -z "$packer" ] || fail "$3" "$1: packed by $packer; $packer -dc $1 >FILE unpacks it"
  kind=$(kind_of "$front")
  [ -z "$kind" ] || [ "$kind" = "$2" ] || fail "$3" "$1: $kind, and $2 is wanted here; $(way_out "$1" "$kind")"
}

# Makes the files the standard input.
open_files() {
  [ ${#files[@]} -eq 0 ] || look_at "${files[0]}" 'a trace' 3
  [ ${#files[@]} -lt 2 ] || look_at "${files[1]}" 'a report' 4
  case ${#files[@]} in
  1) [ "${files[0]}" = - ] || exec <"${files[0]}" ;;
  2) exec < <(exec cat -- "${files[@]}") ;;
  esac
}

# Answers into a file beside the target, which takes its name where the answer was written whole, and goes away else.
answer_into() {
  local file part status
  if [ -e "$1" ] && [ ! -f "$1" ]; then
    [ ! -d "$1" ] || fail 6 "$1: a folder"
    exec >"$1" || exit 6
    answer "${words[@]}"
  fi
  [ ! -e "$1" ] || [ -w "$1" ] || fail 6 "$1: not to be written by you"
  file=$(readlink -f -- "$1") || fail 6 "$1: there is no such folder"
  part=$file.$$.part
  trap 'rm -f -- "$part"' EXIT
  trap 'exit 129' HUP
  trap 'exit 130' INT
  trap 'exit 143' TERM
  : >"$part" || exit 6
  [ ! -e "$file" ] || chmod --reference="$file" -- "$part"
  (answer "${words[@]}") >"$part"
  status=$?
  [ $status -ne 0 ] || mv -f -- "$part" "$file" || status=6
  exit $status
}

answer_on_files() {
  local words=() files=() target=''
  part_words "$@"
  open_files
  case $target in
  '' | -) answer "${words[@]}" ;;
  *) answer_into "$target" ;;
  esac
}
