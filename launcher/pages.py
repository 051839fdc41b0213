#!/usr/bin/env python3
"""Makes the man page and the completions for bash and zsh out of launcher/words.txt.

Usage: pages.py [FOLDER]   writes them to the folder (default: launcher/pages, which is what stands in the repository)
"""
import os
import re
import sys
from dataclasses import dataclass, field

HERE = os.path.dirname(os.path.abspath(__file__))


@dataclass
class Word:
    """A word, with what is said of it by the names of the parts; the lines of a part have no indent."""

    name: str
    phrase: str
    parts: dict[str, list[str]] = field(default_factory=dict)

    def options(self) -> list[tuple[str, str]]:
        """What may stand behind the word, each with what it means."""
        return [tuple(re.split(r" {2,}", line, maxsplit=1)) for line in self.parts.get("options", [])]

    def flags(self) -> list[tuple[str, str]]:
        return [(name, text) for name, text in self.options() if name.startswith("-")]

    def takes_files(self) -> bool:
        return "TRACE" in self.parts["usage"][0]


def read_tools(path: str) -> list[tuple[str, str]]:
    """The tools under recorder/, each with what it does."""
    with open(path, encoding="utf-8") as file:
        return [tuple(line.rstrip().removeprefix("tool ").split(": ", 1)) for line in file if line.startswith("tool ")]


def read_words(path: str) -> tuple[list[str], dict[str, str], list[Word]]:
    """What goheap is, what the statuses mean, and the words."""
    about, statuses, words, part = [], {}, [], []
    with open(path, encoding="utf-8") as file:
        for line in map(str.rstrip, file):
            front, _, rest = line.partition(" ")
            if front == "about":
                about.append(rest)
            elif front == "status":
                number, _, meaning = rest.partition(" ")
                statuses[number] = meaning
            elif front == "=":
                name, _, phrase = rest.partition(": ")
                words.append(Word(name, phrase))
            elif line.startswith("  "):
                part.append(line.strip())
            elif words and line:
                name, _, rest = line.partition(":")
                part = words[-1].parts[name] = [rest.strip()] if rest else []
    return about, statuses, words


def roff(text: str) -> str:
    """Text as a man page has it."""
    text = text.replace("\\", "\\e").replace("-", "\\-")
    return "\\&" + text if text[:1] in (".", "'") else text


def tagged(rows: list[tuple[str, str]]) -> list[str]:
    return [line for name, text in rows for line in (".TP", f".B {roff(name)}", roff(text))]


def man_page(about: list[str], statuses: dict[str, str], words: list[Word], tools: list[tuple[str, str]]) -> str:
    lines = ['.\\" Made by launcher/pages.py from launcher/words.txt.', ".TH GOHEAP 1", ".SH NAME", f"goheap \\- {roff(about[0])}"]
    lines += [".SH SYNOPSIS"]
    for word in words:
        lines += [f".B {roff(word.parts['usage'][0])}", ".br"]
    lines += [".SH DESCRIPTION", *map(roff, about[1:]), ".SH WORDS"]
    for word in words:
        lines += [f".SS {roff(word.name)}", roff(word.phrase[:1].upper() + word.phrase[1:] + "."), *tagged(word.options())]
        for part in ("input", "output"):
            lines += [".TP", f".I {part.capitalize()}", *map(roff, word.parts[part])]
        lines += [".TP", ".I Statuses", roff(", ".join(word.parts["statuses"][0].split()))]
        lines += [".TP", ".I Example", f".B {roff(word.parts['example'][0])}"]
    lines += [".SH EXIT STATUS", *tagged(list(statuses.items()))]
    lines += [".SH TOOLS", roff("Beside the program, in the folder recorder/, or goheap-NAME where they are installed. Each has --help."), *tagged(tools)]
    return "\n".join(lines) + "\n"


def typed(flag: str) -> str:
    """An option as one begins to type it."""
    return re.sub(r"(?<=[= ]).*", "", flag).strip()


def bash_case(word: Word, names: str) -> str:
    """What bash offers behind a word."""
    options = names if word.name == "help" else " ".join(typed(flag) for flag, _ in word.flags())
    files = " files=1" if word.takes_files() else ""
    return f"  {word.name}) options='{options}'{files} ;;"


def commands_of(tools: list[tuple[str, str]]) -> str:
    """What the tools are called by: as installed, and as one types them in goheap's folder."""
    return " ".join(f"goheap-{name} recorder/{name} ./recorder/{name}" for name, _ in tools)


def bash_completion(words: list[Word], tools: list[tuple[str, str]]) -> str:
    names = " ".join(word.name for word in words)
    cases = "\n".join(bash_case(word, names) for word in words)
    return f"""# Completes the words of goheap in bash; `source` it. Made by launcher/pages.py from launcher/words.txt.
_goheap() {{
  local current=${{COMP_WORDS[COMP_CWORD]}} word=${{COMP_WORDS[1]}}
  COMPREPLY=()
  if [ "$COMP_CWORD" -eq 1 ]; then
    mapfile -t COMPREPLY < <(compgen -W '{names}' -- "$current")
    return
  fi
  if [ "${{COMP_WORDS[COMP_CWORD - 1]}}" = -o ]; then
    word=-o
  fi
  local options='' files=''
  case $word in
  -o) files=1 ;;
{cases}
  esac
  mapfile -t COMPREPLY < <(compgen -W "$options" -- "$current"; [ -z "$files" ] || compgen -f -- "$current")
  [[ ${{COMPREPLY[*]}} != *= ]] || compopt -o nospace 2>/dev/null
  [ -z "$files" ] || compopt -o filenames 2>/dev/null
  return 0
}}
complete -F _goheap goheap ./goheap
# The options of a tool are those that its --help has.
_goheap_tool() {{
  local current=${{COMP_WORDS[COMP_CWORD]}} options=''
  COMPREPLY=()
  [[ $current != -* ]] || options=$("${{COMP_WORDS[0]}}" --help 2>/dev/null | grep -o -e '--[a-z][a-z-]*' | sort -u)
  [ -z "$options" ] || mapfile -t COMPREPLY < <(compgen -W "$options" -- "$current")
}}
complete -o default -F _goheap_tool {commands_of(tools)}
"""


def quoted(text: str) -> str:
    """Text within a specification of zsh's _arguments, in single quotes."""
    return re.sub(r"([\[\]:\\])", r"\\\1", text).replace("'", "'\\''")


def zsh_case(word: Word) -> str:
    """What zsh offers behind a word."""
    if word.name == "help":
        return "  help) _describe word names ;;"
    rows = []
    for flag, text in word.flags():
        value = ":FILE:_files" if flag == "-o FILE" else ":N: " if flag.endswith("=N") else ""
        rows.append(f"'{typed(flag)}[{quoted(text)}]{value}'")
    rows += ["'*:file:_files'"] if word.takes_files() else []
    return f"  {word.name}) _arguments {' '.join(rows) or ': '} ;;"


def zsh_completion(words: list[Word], tools: list[tuple[str, str]]) -> str:
    names = "\n".join(f"    '{quoted(word.name)}:{quoted(word.phrase)}'" for word in words)
    cases = "\n".join(map(zsh_case, words))
    return f"""#compdef goheap {' '.join(f"goheap-{name}" for name, _ in tools)}
# Completes the words of goheap in zsh, from a folder of $fpath. Made by launcher/pages.py from launcher/words.txt.
_goheap() {{
  # The options of a tool are those that its --help has.
  [[ $service = goheap ]] || {{ _gnu_generic; return }}
  local -a names=(
{names}
  )
  if (( CURRENT == 2 )); then
    _describe word names
    return
  fi
  shift words
  (( CURRENT-- ))
  case $words[1] in
{cases}
  esac
}}
_goheap "$@"
"""


def pages() -> dict[str, str]:
    """The texts by the names of their files."""
    about, statuses, words = read_words(f"{HERE}/words.txt")
    tools = read_tools(f"{HERE}/words.txt")
    return {"goheap.1": man_page(about, statuses, words, tools), "goheap.bash": bash_completion(words, tools), "_goheap": zsh_completion(words, tools)}


if __name__ == "__main__":
    folder = sys.argv[1] if sys.argv[1:] else f"{HERE}/pages"
    os.makedirs(folder, exist_ok=True)
    for name, text in pages().items():
        with open(f"{folder}/{name}", "w", encoding="utf-8") as file:
            file.write(text)
