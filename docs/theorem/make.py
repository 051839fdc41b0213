#!/usr/bin/env python3
"""Makes docs/theorem.md of docs/theorem/outline.md and of the definitions in the crates.

make.py           writes docs/theorem.md
make.py --check   writes nothing, and ends with 1 where docs/theorem.md is not what it would write

Each line `@file FILE` of the outline becomes the definitions of that file on which the call of the line `@call FILE NAME` rests. It ends
with 1 where a definition that one of them names stands in no file of the outline, where a file of the outline has none of them, and where one
that is named is not there: so a definition that moves is moved in the outline too.
"""

from __future__ import annotations

import sys

from quotes import CRATES, ROOT, USE, WORD, Lost, Place, Quote, call_of, lines_of, quote_of, without_comments

OUTLINE = ROOT / "docs" / "theorem" / "outline.md"
PAGE = ROOT / "docs" / "theorem.md"


def reached_from(call: Quote) -> dict[Place, Quote]:
    """All definitions on which a call's contract rests, by place."""
    found: dict[Place, Quote] = {}
    seen: set[Place] = set()
    waiting = sorted(call.names, key=str)
    while waiting:
        place = waiting.pop()
        if place in seen:
            continue
        seen.add(place)
        quote = quote_of(place)
        found[quote.place] = quote
        waiting += quote.names
    return found


def outside(quotes: list[Quote]) -> list[str]:
    """The words that these definitions take from other libraries, a line for each module."""
    words: dict[str, set[str]] = {}
    for quote in quotes:
        text = without_comments(quote.text, quote.place.file.endswith(".rt"))
        used = set(WORD.findall(text))
        for line in lines_of(quote.place.file):
            match = USE.match(line)
            if not match or match[1] in CRATES or quote.place.file.endswith(".rt"):
                continue
            for word in (it.strip() for it in match[3].split(",")):
                parts = [part for part in word.split("◌") if part]
                plain = word.partition(" as ")[2] or word
                if plain in used or "◌" in word and all(part in text for part in parts):
                    words.setdefault(f"Rattle.{match[1]}.specs.{match[2]}", set()).add(word)
    return [f"- `{module}`: " + ", ".join(f"`{word}`" for word in sorted(words[module])) for module in sorted(words)]


def page_of(outline: str) -> str:
    """The page, or Lost where the outline does not fit the definitions."""
    lines = outline.split("\n")
    call = next(call_of(*line.split()[1:]) for line in lines if line.startswith("@call "))
    quotes = reached_from(call)
    left = dict(quotes)
    made: list[str] = []
    for line in lines:
        word, _, rest = line.partition(" ")
        if word == "@made":
            made += [
                f"It quotes {len(quotes)} definitions of {len({place.file for place in quotes})} files, and is made by",
                "`docs/theorem/make.py`, which fails where a definition moved or one that it rests on is not quoted.",
            ]
        elif word == "@call":
            made += [f"`{call.place.file}`, line {call.line}:", "", "```rust", call.text, "```"]
        elif word == "@file":
            here = sorted((quote for quote in quotes.values() if quote.place.file == rest), key=lambda it: it.line)
            if not here:
                raise Lost(f"outline.md: {rest} has no definition that the statement rests on")
            for quote in here:
                left.pop(quote.place, None)
            text = "\n\n".join(quote.text for quote in here)
            made += [f"### `{rest.removeprefix('crates/')}`", "", "```rust" if rest.endswith(".rt") else "```haskell", text, "```", ""]
        elif word == "@outside":
            made += outside(list(quotes.values()))
        else:
            made.append(line)
    if left:
        raise Lost("outline.md: these are in none of its files:\n" + "\n".join(sorted(map(str, left))))
    return "\n".join(made)


def main(words: list[str]) -> int:
    try:
        page = page_of(OUTLINE.read_text(encoding="utf-8"))
    except Lost as lost:
        print(f"docs/theorem/{lost}" if str(lost).startswith("outline") else lost, file=sys.stderr)
        return 1
    if words == ["--check"]:
        if PAGE.read_text(encoding="utf-8") != page:
            print("docs/theorem.md: a definition changed: make it anew by ./dev theorem", file=sys.stderr)
            return 1
        return 0
    PAGE.write_text(page, encoding="utf-8")
    return 0


if __name__ == "__main__":
    sys.exit(main(sys.argv[1:]))
