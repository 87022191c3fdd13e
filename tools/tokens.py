#!/usr/bin/env python3
"""Makes a token file and its text file from the source of a JavaScript module.

usage:
    tools/tokens.py SOURCE.js OUT      reads a file ("-": the standard input)
    tools/tokens.py -e TEXT OUT        reads TEXT itself
    tools/tokens.py --help

Writes OUT.tok, one record of 14 bytes per token, and OUT.txt, the text that the
records point into: the source itself, and after it the values that escapes made
different from the source. docs/TOKENS.md states the format, docs/KINDS.md the
kinds.

What it reads: a module in UTF-8, by the lexical grammar of ECMAScript.
    names         Unicode letters, $ and _, \\uXXXX and \\u{X} escapes; a keyword has
                  its keyword's kind wherever it stands; #names
    punctuators   the longest that fits (so >>= is one token, and ?. is not read
                  before a digit); @
    strings       every escape, line continuations, lone surrogates
    numbers       decimal, with a point, with an exponent, 0x 0o 0b, 12n, 1_000
    templates     plain and with substitutions, as written: escapes inside them
                  are neither resolved nor examined
    comments      // and /* */ and a #! first line; they make no token, but a line
                  break in them marks the next token
    regular expressions by a guess: a / begins one, unless the token before it ends
                  an expression. Taken as such an end are: a name or keyword that
                  is not reserved; any name after . or ?. ; this super null true
                  false; a #name; a number, string, regular expression or end of a
                  template; ] and } ; ++ and -- ; and ) unless it closes the head
                  of an if, while, for or with. The guess is wrong where a regular
                  expression follows a block's }, the word `of`, or a ++ or --
                  that stands before its operand.

Marks: new line on a token that has a line break between it and the token before
it, and on the first token of all; escaped on a name, keyword, #name or string that
is written with a backslash; lone on a string whose value has a lone surrogate.

What it does not read:
    JSX (a tag comes out as < and names, the text between tags as whatever it
    looks like), the meaning of > in TypeScript's type arguments, HTML-like
    comments, and what a module may not have: octal escapes such as \\07 and
    numbers such as 017. It checks no grammar above tokens: brackets need not
    match. A token of more than 65,535 bytes has no record and is refused, and so
    is a source or a text of more than 4,294,967,295 bytes. Letters are those of
    the Unicode version that this Python knows.

Status 0: both files are written. Status 1: the input is bad, is not readable or
has something that is not read; the message has line and column (counted from 1,
in characters), and nothing is written. Status 2: wrong arguments.
"""

from __future__ import annotations

import os
import re
import struct
import sys
import unicodedata
from dataclasses import dataclass
from itertools import accumulate
from pathlib import Path
from typing import Optional, Sequence

sys.dont_write_bytecode = True  # leave no cache directory beside the sources
sys.path.insert(0, str(Path(__file__).resolve().parent))

from kinds import (  # noqa: E402
    IDENTIFIER,
    IDENTIFIER_NAME,
    NUMBER,
    PUNCTUATORS,
    match_keyword,
)

NEW_LINE, ESCAPED, LONE = 1, 2, 4

RECORD = struct.Struct("<BBIHIH")  # kind, marks, start, length, text place, text length
MAX_LENGTH = 0xFFFF
MAX_PLACE = 0xFFFFFFFF

LINE_BREAKS = frozenset("\n\r\u2028\u2029")
DIGITS = frozenset("0123456789")


class Refused(Exception):
    """The source has something that is not read, at a character of it."""

    def __init__(self, message: str, at: int) -> None:
        super().__init__(message)
        self.message = message
        self.at = at


class TooLarge(Exception):
    """The source or the text does not fit the 32 bits of a place."""


@dataclass
class Token:
    """A token as it stands in the source, its places counted in characters.

    The text is the source from `text_start` to `text_end`, unless `value` holds
    a decoded one.
    """

    kind: int
    marks: int
    start: int
    end: int
    text_start: int
    text_end: int
    value: Optional[bytes] = None


# Characters of names. The classes are Unicode's ID_Start and ID_Continue: the
# general categories, the characters that Unicode adds for the sake of stability,
# less the one letter that is kept for syntax.

_START_CATEGORIES = frozenset(["Lu", "Ll", "Lt", "Lm", "Lo", "Nl"])
_PART_CATEGORIES = _START_CATEGORIES | {"Mn", "Mc", "Nd", "Pc"}
_ADDED_START = frozenset("\u1885\u1886\u2118\u212e\u309b\u309c")
_ADDED_PART = frozenset(
    "\u00b7\u0387\u1369\u136a\u136b\u136c\u136d\u136e\u136f\u1370\u1371\u19da\u30fb\uff65"
)
_JOINERS = frozenset("\u200c\u200d")
_KEPT_FOR_SYNTAX = "\u2e2f"


def is_name_start(char: str) -> bool:
    """Whether a name may begin with this character."""
    if char.isascii():
        return char.isalpha() or char in "$_"
    if char in _ADDED_START:
        return True
    return unicodedata.category(char) in _START_CATEGORIES and char != _KEPT_FOR_SYNTAX


def is_name_part(char: str) -> bool:
    """Whether a name may go on with this character."""
    if char.isascii():
        return char.isalnum() or char in "$_"
    if char in _JOINERS or char in _ADDED_PART or char in _ADDED_START:
        return True
    return unicodedata.category(char) in _PART_CATEGORIES and char != _KEPT_FOR_SYNTAX


def is_space(char: str) -> bool:
    """Whether this is white space, line breaks left aside."""
    return char in "\t\v\f \ufeff" or unicodedata.category(char) == "Zs"


_PUNCTUATOR = re.compile(
    "|".join(re.escape(text) for text in sorted(PUNCTUATORS, key=len, reverse=True))
)
_DIGITS = r"[0-9](?:_?[0-9])*"
_WHOLE = r"(?:0|[1-9](?:_?[0-9])*)"
_NUMBER = re.compile(
    rf"""
      (?P<Hex>0[xX][0-9A-Fa-f](?:_?[0-9A-Fa-f])*)(?P<big_hex>n)?
    | (?P<Octal>0[oO][0-7](?:_?[0-7])*)(?P<big_octal>n)?
    | (?P<Binary>0[bB][01](?:_?[01])*)(?P<big_binary>n)?
    | (?P<DecimalBigInt>{_WHOLE}n)
    | (?:{_WHOLE}(?P<point>\.(?:{_DIGITS})?)?|(?P<bare_point>\.{_DIGITS}))
      (?P<exponent>[eE](?P<sign>[+-])?{_DIGITS})?
    """,
    re.VERBOSE,
)
_HEX_DIGITS = DIGITS | frozenset("abcdefABCDEF")
_SIMPLE_ESCAPES = {
    "n": "\n", "t": "\t", "r": "\r", "b": "\b", "f": "\f", "v": "\v"
}  # fmt: skip

_ENDS_EXPRESSION = IDENTIFIER | frozenset(
    NUMBER[name]
    for name in """This Super Null True False PrivateIdentifier Decimal Float
    Binary Octal Hex PositiveExponential NegativeExponential DecimalBigInt
    BinaryBigInt OctalBigInt HexBigInt Str RegExp NoSubstitutionTemplate
    TemplateTail RBrack RCurly RParen Plus2 Minus2""".split()
)
_DOTS = frozenset([NUMBER["Dot"], NUMBER["QuestionDot"]])
_HEAD_KEYWORDS = frozenset(NUMBER[name] for name in ("If", "While", "For", "With"))


class Scanner:
    """Takes a source apart into tokens; `scan` is the one call to make."""

    def __init__(self, source: str) -> None:
        self.source = source
        self.at = 0
        self.tokens: list[Token] = []
        self.new_line = True  # the first token counts as standing on a new line
        # Where each open curly bracket is that of a template, the template's start.
        self.curlies: list[Optional[int]] = []
        # For each open round bracket, whether it opens the head of a statement.
        self.rounds: list[bool] = []
        self.closed_head = False

    def scan(self) -> list[Token]:
        """All tokens of the source, in order; raises Refused."""
        if self.source.startswith("#!"):
            self.skip_line()
        while self.skip_blank():
            self.token()
        for template in reversed(self.curlies):
            if template is not None:
                raise Refused("a template without an end", template)
        return self.tokens

    # Looking at the source

    def peek(self, ahead: int = 0) -> str:
        """The character `ahead` of here, or nothing past the end."""
        return self.source[self.at + ahead : self.at + ahead + 1]

    def push(
        self,
        kind: int,
        start: int,
        marks: int = 0,
        text: Optional[tuple[int, int]] = None,
        value: Optional[bytes] = None,
    ) -> None:
        """Notes a token that ends here; its text is its source if none is given."""
        text_start, text_end = text or (start, self.at)
        marks |= NEW_LINE if self.new_line else 0
        self.tokens.append(
            Token(kind, marks, start, self.at, text_start, text_end, value)
        )
        self.new_line = False

    # Between the tokens

    def skip_blank(self) -> bool:
        """Goes to the next token; whether there is one."""
        while char := self.peek():
            if char in LINE_BREAKS:
                self.new_line = True
                self.at += 1
            elif is_space(char):
                self.at += 1
            elif self.source.startswith("//", self.at):
                self.skip_line()
            elif self.source.startswith("/*", self.at):
                self.skip_block_comment()
            else:
                return True
        return False

    def skip_line(self) -> None:
        """Goes to the line break that ends this line, or to the end."""
        while (char := self.peek()) and char not in LINE_BREAKS:
            self.at += 1

    def skip_block_comment(self) -> None:
        """Goes past the comment that begins here."""
        end = self.source.find("*/", self.at + 2)
        if end < 0:
            raise Refused("a comment without an end", self.at)
        if any(char in LINE_BREAKS for char in self.source[self.at : end]):
            self.new_line = True
        self.at = end + 2

    # The tokens

    def token(self) -> None:
        """Reads the token that begins here."""
        char = self.peek()
        if char in "\"'":
            self.string()
        elif char == "`":
            self.at += 1
            self.template(self.at - 1, "NoSubstitutionTemplate", "TemplateHead")
        elif char in DIGITS or (char == "." and self.peek(1) in DIGITS):
            self.number()
        elif char == "#":
            self.private_name()
        elif char == "\\" or is_name_start(char):
            start = self.at
            name, escaped = self.name("a name")
            value = name.encode("utf-8") if escaped else None
            self.push(match_keyword(name), start, ESCAPED if escaped else 0, None, value)
        elif char == "/" and self.regular_expression_may_begin():
            self.regular_expression()
        elif char == "}" and self.curlies and self.curlies[-1] is not None:
            self.curlies.pop()
            self.at += 1
            self.template(self.at - 1, "TemplateTail", "TemplateMiddle")
        else:
            self.punctuator()

    def punctuator(self) -> None:
        """Reads the longest punctuator that begins here."""
        start = self.at
        match = _PUNCTUATOR.match(self.source, start)
        if match is None:
            raise Refused(f"no token begins with {describe(self.peek())}", start)
        text = match.group()
        if text == "?." and self.peek(2) in DIGITS:
            text = "?"
        if text == "{":
            self.curlies.append(None)
        elif text == "}":
            if self.curlies:
                self.curlies.pop()
        elif text == "(":
            self.rounds.append(self.head_comes())
        elif text == ")":
            self.closed_head = self.rounds.pop() if self.rounds else False
        self.at += len(text)
        self.push(PUNCTUATORS[text], start)

    def name(self, what: str) -> tuple[str, bool]:
        """Reads a name: its letters, and whether an escape was among them."""
        begin = self.at
        letters: list[str] = []
        escaped = False
        while char := self.peek():
            place = self.at
            if char == "\\":
                if self.peek(1) != "u":
                    raise Refused(f"a backslash in {what} that is not \\u", place)
                self.at += 2
                char = chr(self.unicode_escape(place))
                escaped = True
                if not (is_name_part(char) if letters else is_name_start(char)):
                    raise Refused(
                        f"{describe(char)} is not allowed in {what}, escaped or not", place
                    )
                letters.append(char)
            elif is_name_part(char) if letters else is_name_start(char):
                letters.append(char)
                self.at += 1
            else:
                break
        if not letters:
            raise Refused(f"{what} is missing", begin)
        return "".join(letters), escaped

    def private_name(self) -> None:
        """Reads # and a name; the text is the name alone."""
        start = self.at
        self.at += 1
        name, escaped = self.name("a name after #")
        value = name.encode("utf-8") if escaped else None
        marks = ESCAPED if escaped else 0
        self.push(NUMBER["PrivateIdentifier"], start, marks, (start + 1, self.at), value)

    def number(self) -> None:
        """Reads a number; what follows it must not look like more of it."""
        start = self.at
        match = _NUMBER.match(self.source, start)
        assert match is not None  # a digit begins here, or a point and a digit
        self.at = match.end()
        after = self.peek()
        if after and (after == "\\" or is_name_part(after)):
            if re.match(r"0[0-9_]", self.source[start : start + 2]):
                raise Refused("a number with a leading zero", start)
            raise Refused(f"{describe(after)} directly after a number", self.at)
        for name in ("Hex", "Octal", "Binary"):
            if match[name] is not None:
                kind = name + ("BigInt" if match["big_" + name.lower()] else "")
                break
        else:
            if match["DecimalBigInt"] is not None:
                kind = "DecimalBigInt"
            elif match["exponent"] is not None:
                negative = match["sign"] == "-"
                kind = "NegativeExponential" if negative else "PositiveExponential"
            elif match["point"] is not None or match["bare_point"] is not None:
                kind = "Float"
            else:
                kind = "Decimal"
        self.push(NUMBER[kind], start)

    def string(self) -> None:
        """Reads a string; its text is its value."""
        start = self.at
        quote = self.peek()
        self.at += 1
        pieces: list[str] = []
        escaped = False
        while (char := self.peek()) != quote:
            if not char or char in "\n\r":
                raise Refused("a string without an end", start)
            if char == "\\":
                escaped = True
                pieces.append(self.string_escape())
            else:
                pieces.append(char)
                self.at += 1
        self.at += 1
        text = (start + 1, self.at - 1)
        if not escaped:
            self.push(NUMBER["Str"], start, 0, text)
            return
        value, lone = join_surrogates("".join(pieces))
        marks = ESCAPED | (LONE if lone else 0)
        self.push(NUMBER["Str"], start, marks, text, value.encode("utf-8", "surrogatepass"))

    def string_escape(self) -> str:
        """Reads an escape in a string: what it stands for."""
        place = self.at
        char = self.peek(1)
        self.at += 2
        if not char:
            raise Refused("a string without an end", place)
        if char in _SIMPLE_ESCAPES:
            return _SIMPLE_ESCAPES[char]
        if char == "x":
            return chr(self.hex_digits(2, place))
        if char == "u":
            return chr(self.unicode_escape(place))
        if char in LINE_BREAKS:
            if char == "\r" and self.peek() == "\n":
                self.at += 1
            return ""
        if char in DIGITS:
            if char == "0" and self.peek() not in DIGITS:
                return "\0"
            raise Refused("an octal escape, which a module may not have", place)
        return char

    def unicode_escape(self, place: int) -> int:
        """Reads what follows \\u: a code point."""
        if self.peek() != "{":
            return self.hex_digits(4, place)
        end = self.source.find("}", self.at)
        digits = self.source[self.at + 1 : end] if end >= 0 else ""
        if not digits or not _HEX_DIGITS.issuperset(digits):
            raise Refused("\\u{ without hexadecimal digits and a }", place)
        if int(digits, 16) > 0x10FFFF:
            raise Refused("an escape above \\u{10FFFF}", place)
        self.at = end + 1
        return int(digits, 16)

    def hex_digits(self, count: int, place: int) -> int:
        """Reads `count` hexadecimal digits."""
        digits = self.source[self.at : self.at + count]
        if len(digits) < count or not _HEX_DIGITS.issuperset(digits):
            raise Refused(f"an escape without its {count} hexadecimal digits", place)
        self.at += count
        return int(digits, 16)

    def template(self, start: int, whole: str, part: str) -> None:
        """Reads on in a template, to its end (`whole`) or a substitution (`part`)."""
        while char := self.peek():
            if char == "\\":
                self.at += 2
            elif char == "`":
                self.at += 1
                self.push(NUMBER[whole], start)
                return
            elif char == "$" and self.peek(1) == "{":
                self.at += 2
                self.curlies.append(start)
                self.push(NUMBER[part], start)
                return
            else:
                self.at += 1
        raise Refused("a template without an end", start)

    def regular_expression(self) -> None:
        """Reads a regular expression and its flags."""
        start = self.at
        self.at += 1
        in_class = False
        while (char := self.peek()) != "/" or in_class:
            if char == "\\":
                self.at += 1
                char = self.peek()
            elif char == "[":
                in_class = True
            elif char == "]":
                in_class = False
            if not char or char in LINE_BREAKS:
                raise Refused("a regular expression without an end", start)
            self.at += 1
        self.at += 1
        while (char := self.peek()) and is_name_part(char):
            self.at += 1
        self.push(NUMBER["RegExp"], start)

    # The guess about regular expressions

    def before(self, back: int) -> int:
        """The kind of the last token but `back`; Eof if there is none."""
        return self.tokens[-1 - back].kind if len(self.tokens) > back else NUMBER["Eof"]

    def head_comes(self) -> bool:
        """Whether a round bracket here opens the head of a statement."""
        back = 0
        if self.before(0) == NUMBER["Await"] and self.before(1) == NUMBER["For"]:
            back = 1
        return self.before(back) in _HEAD_KEYWORDS and self.before(back + 1) not in _DOTS

    def regular_expression_may_begin(self) -> bool:
        """Whether a slash here begins a regular expression, by the stated guess."""
        last = self.before(0)
        if last == NUMBER["RParen"]:
            return self.closed_head
        if last in IDENTIFIER_NAME and self.before(1) in _DOTS:
            return False
        return last not in _ENDS_EXPRESSION


def join_surrogates(value: str) -> tuple[str, bool]:
    """Joins the surrogates that form pairs; whether one is left alone."""
    joined = value.encode("utf-16-le", "surrogatepass").decode(
        "utf-16-le", "surrogatepass"
    )
    return joined, any("\ud800" <= char <= "\udfff" for char in joined)


def describe(char: str) -> str:
    """A character for a message."""
    if char.isprintable():
        return f"'{char}'"
    return f"U+{ord(char):04X}"


def line_and_column(source: str, at: int) -> tuple[int, int]:
    """Line and column of a character, both from 1; CR LF is one line break."""
    line, begin = 1, 0
    for match in re.finditer("\r\n|[\n\r\u2028\u2029]", source):
        if match.end() > at:
            break
        line, begin = line + 1, match.end()
    return line, at - begin + 1


def byte_places(characters: str) -> Sequence[int]:
    """For each character, and for the end, the number of bytes before it."""
    if characters.isascii():
        return range(len(characters) + 1)
    sizes = (len(char.encode("utf-8")) for char in characters)
    return list(accumulate(sizes, initial=0))


def encode(source: bytes) -> tuple[bytes, bytes]:
    """The token file and the text file of a source; raises Refused or TooLarge."""
    check_size(len(source), "source")
    try:
        characters = source.decode("utf-8")
    except UnicodeDecodeError as error:
        good = source[: error.start].decode("utf-8")
        raise Refused("not UTF-8", len(good)) from error
    tokens = Scanner(characters).scan()
    byte_at = byte_places(characters)
    records = bytearray()
    text = bytearray(source)
    for token in tokens:
        start = byte_at[token.start]
        length = byte_at[token.end] - start
        if length > MAX_LENGTH:
            raise Refused(
                f"a token of {length:,} bytes; a record holds at most {MAX_LENGTH:,}",
                token.start,
            )
        place = byte_at[token.text_start]
        text_length = byte_at[token.text_end] - place
        if token.value is not None:  # never longer than the token it was decoded from
            place, text_length = len(text), len(token.value)
            text += token.value
            check_size(len(text), "text")
        records += RECORD.pack(token.kind, token.marks, start, length, place, text_length)
    return bytes(records), bytes(text)


def check_size(size: int, what: str) -> None:
    """Raises TooLarge where places would not fit 32 bits."""
    if size > MAX_PLACE:
        raise TooLarge(f"a {what} of {size:,} bytes; at most {MAX_PLACE:,} can be placed")


def write_both(out: str, records: bytes, text: bytes) -> None:
    """Writes OUT.tok and OUT.txt; both are complete before either gets its name."""
    waiting = []
    try:
        for suffix, content in ((".tok", records), (".txt", text)):
            temporary = f"{out}{suffix}.{os.getpid()}.part"
            with open(temporary, "xb") as file:
                waiting.append((temporary, out + suffix))
                file.write(content)
        for temporary, target in waiting:
            os.replace(temporary, target)
    finally:
        for temporary, _ in waiting:
            Path(temporary).unlink(missing_ok=True)


def read_source(path: str) -> bytes:
    """The bytes of the source; a file too large is refused before it is read."""
    if path == "-":
        return sys.stdin.buffer.read()
    check_size(os.stat(path).st_size, "source")
    return Path(path).read_bytes()


def main(arguments: list[str]) -> int:
    """The command; the result is the exit status."""
    if arguments in (["--help"], ["-h"]):
        print(__doc__)
        return 0
    try:
        if len(arguments) == 3 and arguments[0] == "-e":
            name, source, out = "-e", os.fsencode(arguments[1]), arguments[2]
        elif len(arguments) == 2 and (arguments[0] == "-" or arguments[0][:1] != "-"):
            name, out = arguments
            source = read_source(name)
        else:
            print(
                "tokens.py: wants SOURCE.js OUT, or -e TEXT OUT; see --help",
                file=sys.stderr,
            )
            return 2
        write_both(out, *encode(source))
    except Refused as refused:
        line, column = line_and_column(source.decode("utf-8", "replace"), refused.at)
        print(f"{name}:{line}:{column}: {refused.message}", file=sys.stderr)
        return 1
    except TooLarge as error:
        print(f"{name}: {error}", file=sys.stderr)
        return 1
    except OSError as error:
        print(f"tokens.py: {error}", file=sys.stderr)
        return 1
    return 0


if __name__ == "__main__":
    sys.exit(main(sys.argv[1:]))
