# shellcheck shell=bash disable=SC2154
# What the launcher answers by itself, without a program: the words (launcher/words.txt) and the version. Sourced by `goheap`.
# Only what bash has built in is called for the words, so that they stand at once. `root` is the folder of `goheap`.

# Lists the words, one a line with its phrase.
list_words() {
  local line
  printf '%s\n' 'usage: goheap WORD [OPTIONS] [FILES]' '' 'words:'
  while IFS= read -r line; do
    [[ $line != '= '* ]] || { line=${line#= } && printf '  %-10s %s\n' "${line%%:*}" "${line#*: }"; }
  done <"$root/launcher/words.txt"
  printf '%s\n' '' '"goheap help WORD" says more of one.'
}

# Prints all that is said of a word. Fails where there is none of this name.
print_word() {
  local line word='' number found=1
  local -A meanings=()
  while IFS= read -r line; do
    case $line in
    'status '*) line=${line#status } && meanings[${line%% *}]=${line#* } ;;
    '= '*)
      line=${line#= } && word=${line%%:*}
      [ "$word" != "$1" ] || { found=0 && echo "goheap $line"; } ;;
    '' | '#'* | 'about '*) ;;
    *)
      [ "$word" = "$1" ] || continue
      [[ $line = 'statuses: '* ]] || { echo "$line" && continue; }
      echo 'statuses:'
      for number in ${line#statuses: }; do printf '  %-4s%s\n' "$number" "${meanings[$number]}"; done ;;
    esac
  done <"$root/launcher/words.txt"
  return $found
}

# Answers `help` and what means the same.
answer_help() {
  if [ $# -eq 0 ]; then
    list_words
  elif [ $# -gt 1 ] || ! print_word "$1"; then
    echo "goheap: help: there is no word ${*@Q}" >&2
    list_words >&2
    return 2
  fi
}

# The version and the commit of a checkout: the last tag, and the commits since. (Whether files were changed is not looked at, which reads them
# all; and git takes longer to look for a tag below the commit than for all else here, so it is asked where there is one.)
read_tags() {
  local hash name tags='' described
  while read -r hash name; do
    case $name in
    HEAD) commit=$hash version=0.0.0-${hash::12} ;;
    refs/tags/v[0-9]*) tags=1 ;;
    esac
  done < <(exec git -C "$root" show-ref --head --tags 2>/dev/null)
  [ -n "$tags" ] && described=$(exec git -C "$root" describe --tags --match 'v[0-9]*' --long --abbrev=12 2>/dev/null) || return
  described=${described%-g*}
  version=${described#v} version=${version%-*}
  [ "${described##*-}" = 0 ] || version+=-${described##*-}-${commit::12}
}

# The identity of the toolchain on the path. A kit has it in a file, which is read in no time; rt takes a second to say it.
read_kit() {
  local rt
  kit='none on the path'
  hash rt 2>/dev/null || return
  rt=${BASH_CMDS[rt]}
  [ ! -L "$rt" ] || rt=$(readlink -f -- "$rt")
  { read -r kit <"${rt%/bin/*}/KIT-ID"; } 2>/dev/null || kit=$(rt version 2>/dev/null) || kit=unknown
}

answer_version() {
  local version commit kit line runs='the proved program'
  if is_release; then
    while IFS= read -r line; do
      case $line in
      '# version: '*) version=${line#*: } ;;
      '# commit: '*) commit=${line#*: } ;;
      '# toolchain: '*) kit=${line#*: } ;;
      esac
    done <"$root/RELEASE"
  else
    read_tags
    read_kit
    is_fresh || runs='a build without proofs, which each call compiles; goheap --build proves and builds the program'
  fi
  printf '%s\n' "goheap ${version-unknown}" "commit: ${commit-unknown}" "toolchain: ${kit-unknown}" "what runs: $runs"
}

# Answers the words that want no program, and ends.
answer_by_itself() {
  case $* in
  '') list_words >&2 && exit 2 ;;
  --version) answer_version ;;
  --version*) print_word --version >&2 && exit 2 ;;
  *) answer_help "${@:2}" ;;
  esac
  exit
}
