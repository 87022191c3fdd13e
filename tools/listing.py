#!/usr/bin/env python3
"""Prints what show_tokens must print for token files, decoded here independently of it.

    tools/listing.py TOKENS TEXT [TOKENS TEXT]..

The listing is what the gate compares the program's output with.
"""
import struct
import sys
from pathlib import Path

sys.dont_write_bytecode = True
sys.path.insert(0, str(Path(__file__).resolve().parent))

from kinds import KINDS  # noqa: E402

RULES = [
    "it has fewer than 14 bytes",
    "its kind is beyond At, 168",
    "it has a mark bit besides 1, 2 and 4",
    "it ends past 4,294,967,295",
    "its text lies outside the text file",
]


def quoted(raw: bytes) -> str:
    """A token's text as Rust's `{:?}` shows a string; what is no UTF-8 byte by byte."""
    try:
        text = raw.decode("utf-8")
    except UnicodeDecodeError:
        return '"' + "".join(f"\\x{b:02x}" for b in raw) + '"'
    out = []
    for c in text:
        simple = {"\t": "\\t", "\r": "\\r", "\n": "\\n", '"': '\\"', "\\": "\\\\", "\0": "\\0"}
        if c in simple:
            out.append(simple[c])
        elif c.isprintable():
            out.append(c)
        else:
            out.append(f"\\u{{{ord(c):x}}}")
    return '"' + "".join(out) + '"'


def broken(record: bytes, size: int) -> int:
    """The number of the first rule that a record breaks, 0 where it breaks none."""
    if len(record) < 14:
        return 1
    kind, marks, start, length, place, text_length = struct.unpack("<BBIHIH", record)
    if kind > 168:
        return 2
    if marks & ~7:
        return 3
    if start + length > 0xFFFFFFFF:
        return 4
    if place + text_length > size:
        return 5
    return 0


def listing(tokens_path: str, text_path: str) -> None:
    data, text = Path(tokens_path).read_bytes(), Path(text_path).read_bytes()
    print(f"{tokens_path}, with its text in {text_path}")
    number, end = 0, "at the end of the bytes"
    for at in range(0, len(data), 14):
        record = data[at : at + 14]
        rule = broken(record, len(text))
        if rule:
            print(f"{number:>5} {at:>6} {0:>7} {0:>7} ... Undetermined \"\"")
            number += 1
            end = f"at a bad record, at byte {at}, by rule {rule}: {RULES[rule - 1]}"
            break
        kind, marks, start, length, place, text_length = struct.unpack("<BBIHIH", record)
        if kind == 0:
            end = f"at an Eof, in the record at byte {at}"
            break
        letters = "".join(c if marks & b else "." for c, b in (("n", 1), ("e", 2), ("l", 4)))
        name = quoted(text[place : place + text_length])
        print(f"{number:>5} {at:>6} {start:>7} {start + length:>7} {letters} {KINDS[kind].name} {name}")
        number += 1
    print(f"{number} tokens in {len(data)} bytes; the list ends {end}.")
    print()


def main() -> int:
    words = sys.argv[1:]
    if not words or len(words) % 2:
        print(__doc__, file=sys.stderr)
        return 2
    for i in range(0, len(words), 2):
        listing(words[i], words[i + 1])
    return 0


sys.exit(main())
