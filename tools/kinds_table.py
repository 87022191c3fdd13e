#!/usr/bin/env python3
"""Writes docs/KINDS.md, the table of the token kinds, from tools/kinds.py.

    tools/kinds_table.py            writes the file
    tools/kinds_table.py --check    status 1 if the file is not what would be written
"""

from __future__ import annotations

import sys
from pathlib import Path

sys.dont_write_bytecode = True  # leave no cache directory beside the sources
sys.path.insert(0, str(Path(__file__).resolve().parent))

import kinds  # noqa: E402

TARGET = Path(__file__).resolve().parent.parent / "docs" / "KINDS.md"

INTRODUCTION = """\
# The token kinds

There are {count} kinds, numbered from {first} 0 to {last} {last_number}. The number is the first byte of a
record in a token file (see [TOKENS.md](TOKENS.md)); a number above {last_number} is no kind.
This page is written by `tools/kinds_table.py` from the list in `tools/kinds.py`.

Names, numbers and classes are those of oxc_parser 0.156.0, `src/lexer/kind.rs` (see NOTICE).

## The classes

{classes}

Reserved, contextual and strict have no word in common, and together they are the {words} words from
`await` ({await_number}) to `null` ({null_number}), which are exactly the kinds of *any keyword*.
Every future word is a strict one; `let` is the only strict word that is not a future one.

## From a text to its kind

A name is the keyword whose spelling it is, letter for letter, and otherwise an Ident. Every keyword is
spelled in small letters and has 2 to 11 of them. The spelling is that after escapes are resolved: a keyword
written with an escape keeps its keyword's kind, and the token carries the mark *escaped*.

## The table

"""

MEANING = {
    "identifier name": "may stand where any name may: Ident and every keyword",
    "identifier": "an identifier name that is not reserved",
    "binding identifier": "an identifier, or `yield` or `await`",
    "reserved": "reserved words of the language, with `await` and `yield` among them",
    "contextual": "words that are keywords only where the grammar asks for them",
    "strict": "words that only strict code reserves",
    "future": "words kept for later versions of the language",
    "any keyword": "reserved, contextual, strict or future",
}


def code(text: str) -> str:
    """`text` as code inside a table cell."""
    return "`" + text.replace("|", "\\|") + "`"


def page() -> str:
    """The whole text of docs/KINDS.md."""
    lines = ["| class | kinds | meaning |", "|---|---|---|"]
    for name, members in kinds.CLASSES.items():
        lines.append(f"| {name} | {len(members)} | {MEANING[name]} |")
    introduction = INTRODUCTION.format(
        count=len(kinds.KINDS),
        first=kinds.KINDS[0].name,
        last=kinds.KINDS[-1].name,
        last_number=kinds.LAST,
        classes="\n".join(lines),
        words=len(kinds.ANY_KEYWORD),
        await_number=kinds.NUMBER["Await"],
        null_number=kinds.NUMBER["Null"],
    )
    columns = ["number", "kind", "what it is", *kinds.CLASSES]
    rows = ["| " + " | ".join(columns) + " |", "|" + "---|" * len(columns)]
    for number, kind in enumerate(kinds.KINDS):
        what = f"{kind.what} {code(kind.text)}" if kind.text else kind.what
        cells = [str(number), kind.name, what]
        cells += ["x" if number in members else "" for members in kinds.CLASSES.values()]
        rows.append("| " + " | ".join(cells) + " |")
    return introduction + "\n".join(rows) + "\n"


def main(arguments: list[str]) -> int:
    """Writes or checks the page; the result is the exit status."""
    if arguments == []:
        TARGET.write_text(page(), encoding="utf-8")
        return 0
    if arguments == ["--check"]:
        if TARGET.is_file() and TARGET.read_text(encoding="utf-8") == page():
            return 0
        print("docs/KINDS.md is not what tools/kinds_table.py writes", file=sys.stderr)
        return 1
    print(__doc__, file=sys.stderr)
    return 2


if __name__ == "__main__":
    sys.exit(main(sys.argv[1:]))
