#!/usr/bin/env python3
"""Tests of tools/tokens.py, tools/kinds.py and the files that are made with them.

    python3 tools/test_tokens.py

The expected numbers and bytes are written out here, worked out from docs/TOKENS.md
and docs/KINDS.md, and are not taken from the code under test.
"""

from __future__ import annotations

import io
import os
import subprocess
import sys
import tempfile
import unittest
from contextlib import redirect_stderr, redirect_stdout
from pathlib import Path
from typing import NamedTuple

sys.dont_write_bytecode = True  # leave no cache directory beside the sources
TOOLS = Path(__file__).resolve().parent
sys.path.insert(0, str(TOOLS))

import kinds  # noqa: E402
import tokens  # noqa: E402

EOF, UNDETERMINED, IDENT = 0, 1, 4
STR, REGEXP, PLAIN_TEMPLATE, HEAD, MIDDLE, TAIL, PRIVATE = range(160, 167)
DECIMAL, FLOAT, BINARY, OCTAL, HEX, POSITIVE, NEGATIVE = range(149, 156)
BIG, BIG_BINARY, BIG_OCTAL, BIG_HEX = range(156, 160)
NEW_LINE, ESCAPED, LONE = 1, 2, 4

KEYWORDS = """
5 await 6 break 7 case 8 catch 9 class 10 const 11 continue 12 debugger 13 default
14 delete 15 do 16 else 17 enum 18 export 19 extends 20 finally 21 for 22 function
23 if 24 import 25 in 26 instanceof 27 new 28 return 29 super 30 switch 31 this
32 throw 33 try 34 typeof 35 var 36 void 37 while 38 with 39 async 40 from 41 get
42 meta 43 of 44 set 45 target 46 accessor 47 source 48 defer 49 abstract 50 as
51 asserts 52 assert 53 any 54 boolean 55 constructor 56 declare 57 infer
58 intrinsic 59 is 60 keyof 61 module 62 namespace 63 never 64 out 65 readonly
66 require 67 number 68 object 69 satisfies 70 string 71 symbol 72 type
73 undefined 74 unique 75 using 76 unknown 77 global 78 bigint 79 override
80 implements 81 interface 82 let 83 package 84 private 85 protected 86 public
87 static 88 yield 89 true 90 false 91 null
""".split()

PUNCTUATORS = """
92 & 93 && 94 &&= 95 &= 96 ! 97 ^ 98 ^= 99 : 100 , 101 . 102 ... 103 = 104 ==
105 === 106 >= 107 < 108 [ 109 { 110 ( 111 <= 112 - 113 -- 114 -= 115 != 116 !==
117 % 118 %= 119 | 120 || 121 ||= 122 |= 123 + 124 ++ 125 += 126 ? 127 ?? 128 ??=
129 ?. 130 > 131 ] 132 } 133 ) 134 ; 135 << 136 <<= 137 >> 138 >>> 139 >>>= 140 >>=
141 / 142 /= 143 * 144 ** 145 **= 146 *= 147 ~ 148 => 168 @
""".split()


def pairs(words: list[str]) -> list[tuple[int, str]]:
    """Numbers and spellings out of the alternating lists above."""
    return [(int(number), text) for number, text in zip(words[::2], words[1::2])]


class Read(NamedTuple):
    """A record taken apart by the rules of the format."""

    kind: int
    marks: int
    start: int
    end: int
    text: bytes


def read(records: bytes, text: bytes) -> list[Read]:
    """Takes a token file apart, field by field."""
    assert len(records) % 14 == 0
    found = []
    for at in range(0, len(records), 14):
        record = records[at : at + 14]
        start = int.from_bytes(record[2:6], "little")
        length = int.from_bytes(record[6:8], "little")
        place = int.from_bytes(record[8:12], "little")
        text_length = int.from_bytes(record[12:14], "little")
        assert place + text_length <= len(text)
        part = text[place : place + text_length]
        found.append(Read(record[0], record[1], start, start + length, part))
    return found


def scan(source: str) -> list[Read]:
    """The tokens of a source, by way of its files."""
    return read(*tokens.encode(source.encode("utf-8")))


def kinds_of(source: str) -> list[int]:
    """The kinds of a source's tokens."""
    return [token.kind for token in scan(source)]


class Bytes(unittest.TestCase):
    """Whole files, byte for byte."""

    def check(self, source: bytes, records: str, extra: bytes = b"") -> None:
        got_records, got_text = tokens.encode(source)
        self.assertEqual(got_records.hex(), bytes.fromhex(records).hex())
        self.assertEqual(got_text, source + extra)

    def test_empty(self) -> None:
        self.check(b"", "")
        self.check(b" \t\n// nothing\n", "")

    def test_import(self) -> None:
        self.check(
            b'import delta from "smile"',
            "18 01 00000000 0600 00000000 0600"
            "04 00 07000000 0500 07000000 0500"
            "28 00 0d000000 0400 0d000000 0400"
            "a0 00 12000000 0700 13000000 0500",
        )

    def test_escaped_keyword(self) -> None:
        # "\u0069f" has 7 bytes; its name goes to place 7 of the text, after the source.
        self.check(
            rb"\u0069f", "17 03 00000000 0700 07000000 0200", b"if"
        )

    def test_lone_surrogate(self) -> None:
        # A space, then 8 bytes of string; the value follows the 9 bytes of source.
        self.check(
            rb' "\uDFFF"', "a0 07 01000000 0800 09000000 0300", b"\xed\xbf\xbf"
        )

    def test_values_follow_each_other(self) -> None:
        self.check(
            rb"'\x41' b '\n\n'",
            "a0 03 00000000 0600 0f000000 0100"
            "04 00 07000000 0100 07000000 0100"
            "a0 02 09000000 0600 10000000 0200",
            b"A\n\n",
        )

    def test_spans_count_bytes(self) -> None:
        # The name has 2 + 3 bytes, the blank (U+3000) 3, the string 1 + 4 + 1.
        self.check(
            "é株\u3000'😀'".encode("utf-8"),
            "04 01 00000000 0500 00000000 0500"
            "a0 00 08000000 0600 09000000 0400",
        )

    def test_private_name(self) -> None:
        self.check(
            rb"#ab;#\u{63}",
            "a6 01 00000000 0300 01000000 0200"
            "86 00 03000000 0100 03000000 0100"
            "a6 02 04000000 0700 0b000000 0100",
            b"c",
        )

    def test_little_endian(self) -> None:
        self.check(
            b" " * 0x010203 + b"x" * 0x0405,
            "04 01 03020100 0504 03020100 0504",
        )


class Words(unittest.TestCase):
    """Names and keywords."""

    def test_every_keyword(self) -> None:
        self.assertEqual(len(pairs(KEYWORDS)), 87)
        for number, text in pairs(KEYWORDS):
            with self.subTest(text):
                size = len(text)
                self.assertEqual(
                    scan(text), [(number, NEW_LINE, 0, size, text.encode())]
                )

    def test_every_keyword_escaped(self) -> None:
        for number, text in pairs(KEYWORDS):
            with self.subTest(text):
                escaped = f"\\u{{{ord(text[0]):x}}}{text[1:]}"
                self.assertEqual(
                    scan("x " + escaped)[1:],
                    [(number, ESCAPED, 2, 2 + len(escaped), text.encode())],
                )

    def test_near_keywords(self) -> None:
        for _, text in pairs(KEYWORDS):
            for near in (text + "s_", "_" + text, text.upper(), text[0] + "$" + text[1:]):
                with self.subTest(near):
                    self.assertEqual(kinds_of(near), [IDENT])

    def test_keyword_as_a_property(self) -> None:
        self.assertEqual(kinds_of("a.import"), [IDENT, 101, 24])

    def test_names(self) -> None:
        for name in ("$", "_", "a1", "é", "株", "ℼ", "a\u0301", "a·", "a\u200d", "Ⅷ",
                     "𝔸", "a\u203f", "℘", "゛"):  # fmt: skip
            with self.subTest(name):
                size = len(name.encode())
                self.assertEqual(scan(name), [(IDENT, 1, 0, size, name.encode())])

    def test_escapes_in_names(self) -> None:
        for source, name in (
            (r"\u0061", "a"),
            (r"a\u0062c", "abc"),
            (r"a\u{0000062}", "ab"),
            (r"\u{1d538}x", "𝔸x"),
            (r"a\u0301", "a\u0301"),
            (r"a\u200c", "a\u200c"),
            (r"a\u{24}\u005F9", "a$_9"),
        ):
            with self.subTest(source):
                self.assertEqual(
                    scan(source), [(IDENT, 3, 0, len(source), name.encode())]
                )

    def test_private_names(self) -> None:
        self.assertEqual(scan("#if"), [(PRIVATE, 1, 0, 3, b"if")])
        self.assertEqual(scan(r"#\u0061b"), [(PRIVATE, 3, 0, 8, b"ab")])


class Punctuators(unittest.TestCase):
    """Punctuators, longest first."""

    def test_every_punctuator(self) -> None:
        self.assertEqual(len(pairs(PUNCTUATORS)), 58)
        for number, text in pairs(PUNCTUATORS):
            with self.subTest(text):
                end = 2 + len(text)
                self.assertEqual(
                    scan(f"x {text} y")[1], (number, 0, 2, end, text.encode())
                )

    def test_longest(self) -> None:
        for source, expected in (
            (">>>=", [139]),
            (">>>>=", [138, 106]),
            ("====", [105, 103]),
            ("!===", [116, 103]),
            ("....", [102, 101]),
            ("..", [101, 101]),
            ("***=", [144, 146]),
            ("x+++y", [IDENT, 124, 123, IDENT]),
            ("????=", [127, 128]),
            ("&&&=", [93, 95]),
            ("=>=", [148, 103]),
        ):
            with self.subTest(source):
                self.assertEqual(kinds_of(source), expected)

    def test_question_dot_before_a_digit(self) -> None:
        self.assertEqual(kinds_of("a?.b"), [IDENT, 129, IDENT])
        self.assertEqual(kinds_of("a?.5:b"), [IDENT, 126, FLOAT, 99, IDENT])
        self.assertEqual(kinds_of("a??.5"), [IDENT, 127, FLOAT])


class Marks(unittest.TestCase):
    """The mark new line."""

    def second(self, between: str) -> int:
        return scan("a" + between + "b")[1].marks

    def test_first_token(self) -> None:
        self.assertEqual(scan("a b")[0].marks, NEW_LINE)
        self.assertEqual(scan("\ufeffa")[0].marks, NEW_LINE)

    def test_line_breaks(self) -> None:
        for between in ("\n", "\r", "\r\n", "\u2028", "\u2029", " \n ", "//x\n",
                        "//x\u2028", "/*\n*/", "/*\r*/", "/*\u2029*/", "/**/\n",
                        "\n/**/", "/*\n*//**/"):  # fmt: skip
            with self.subTest(between):
                self.assertEqual(self.second(between), NEW_LINE)

    def test_no_line_break(self) -> None:
        for between in (" ", "\t\v\f\u00a0\ufeff\u2003\u3000", "/* x */", "/**/", "/***/"):
            with self.subTest(between):
                self.assertEqual(self.second(between), 0)

    def test_break_inside_a_token(self) -> None:
        self.assertEqual([t.marks for t in scan("`\n` x")], [NEW_LINE, 0])
        self.assertEqual([t.marks for t in scan("'\\\n' x")], [NEW_LINE | ESCAPED, 0])

    def test_hashbang(self) -> None:
        self.assertEqual(scan("#!/usr/bin/env node\nx"), [(IDENT, 1, 20, 21, b"x")])
        self.assertEqual(scan("#! all there is"), [])

    def test_comments_make_no_token(self) -> None:
        self.assertEqual(scan("a//b\n/*c*/d")[1], (IDENT, 1, 10, 11, b"d"))


class Strings(unittest.TestCase):
    """Strings, their values and marks."""

    def check(self, inside: str, value: bytes, marks: int = ESCAPED) -> None:
        for quote in "\"'":
            source = f"{quote}{inside}{quote}"
            with self.subTest(source):
                size = len(source.encode())
                expected = [(STR, NEW_LINE | marks, 0, size, value)]
                self.assertEqual(scan(source), expected)

    def test_plain(self) -> None:
        for inside in ("", "a", "é株😀", "a\u2028b", "`${}", "//", "\t"):
            self.check(inside, inside.encode(), 0)
        self.assertEqual(scan("'\"'")[0].text, b'"')

    def test_simple_escapes(self) -> None:
        for inside, value in (
            (r"\n", b"\n"), (r"\t", b"\t"), (r"\r", b"\r"), (r"\b", b"\x08"),
            (r"\f", b"\x0c"), (r"\v", b"\x0b"), (r"\0", b"\0"), (r"\0a", b"\0a"),
            (r"\\", b"\\"), (r"\"", b'"'), (r"\'", b"'"), (r"\q\é", "qé".encode()),
        ):  # fmt: skip
            self.check(inside, value)

    def test_numeric_escapes(self) -> None:
        for inside, value in (
            (r"\x41\xe9", "Aé".encode()),
            (r"\u00E9\u682A", "é株".encode()),
            (r"\u{41}\u{0001F600}", "A😀".encode()),
            (r"\u{10FFFF}", b"\xf4\x8f\xbf\xbf"),
        ):
            self.check(inside, value)

    def test_line_continuations(self) -> None:
        for line_break in ("\n", "\r", "\r\n", "\u2028", "\u2029"):
            self.check(f"a\\{line_break}b", b"ab")

    def test_surrogate_pairs(self) -> None:
        self.check(r"\uD83D\uDE00", b"\xf0\x9f\x98\x80")
        self.check(r"\u{D83D}\u{DE00}", b"\xf0\x9f\x98\x80")
        self.check("\\uD83D\\\n\\uDE00", b"\xf0\x9f\x98\x80")

    def test_lone_surrogates(self) -> None:
        both = ESCAPED | LONE
        self.check(r"\uD800", b"\xed\xa0\x80", both)
        self.check(r"\uDBFF", b"\xed\xaf\xbf", both)
        self.check(r"\uDC00", b"\xed\xb0\x80", both)
        self.check(r"\u{DFFF}", b"\xed\xbf\xbf", both)
        self.check(r"a\uDE00\uD83Db", b"a\xed\xb8\x80\xed\xa0\xbdb", both)
        self.check(r"\uD83D\uD83D\uDE00", b"\xed\xa0\xbd\xf0\x9f\x98\x80", both)
        self.check("\\uD83D😀", b"\xed\xa0\xbd\xf0\x9f\x98\x80", both)


class Numbers(unittest.TestCase):
    """Numbers; their text is as written."""

    def test_kinds(self) -> None:
        for source, kind in (
            ("0", DECIMAL), ("42", DECIMAL), ("1_000", DECIMAL),
            ("1.5", FLOAT), ("1.", FLOAT), (".5", FLOAT), ("0.1_2", FLOAT),
            ("1e10", POSITIVE), ("1E+10", POSITIVE), ("1.e3", POSITIVE),
            (".5e1_0", POSITIVE), ("1e-10", NEGATIVE), ("1.5E-3", NEGATIVE),
            ("0x1F", HEX), ("0XaB_c", HEX), ("0o17", OCTAL), ("0O7_7", OCTAL),
            ("0b101", BINARY), ("0B1_0", BINARY), ("0n", BIG), ("1_2n", BIG),
            ("0x1Fn", BIG_HEX), ("0o7n", BIG_OCTAL), ("0b1n", BIG_BINARY),
        ):  # fmt: skip
            with self.subTest(source):
                size = len(source)
                self.assertEqual(scan(source), [(kind, 1, 0, size, source.encode())])

    def test_what_follows(self) -> None:
        self.assertEqual(kinds_of("1..a"), [FLOAT, 101, IDENT])
        self.assertEqual(kinds_of("1+.5-2"), [DECIMAL, 123, FLOAT, 112, DECIMAL])
        self.assertEqual(kinds_of("1.5.5"), [FLOAT, FLOAT])


class Templates(unittest.TestCase):
    """Templates; their text is as written."""

    def test_plain(self) -> None:
        for source in ("``", "`a`", "`\\``", "`$`", "`$a{}`", "`\n\\u{zz}`", "`'`", "`\\${`"):
            with self.subTest(source):
                size = len(source)
                self.assertEqual(
                    scan(source), [(PLAIN_TEMPLATE, 1, 0, size, source.encode())]
                )

    def test_substitutions(self) -> None:
        self.assertEqual(
            scan("`a${b}c${d}e`"),
            [
                (HEAD, 1, 0, 4, b"`a${"),
                (IDENT, 0, 4, 5, b"b"),
                (MIDDLE, 0, 5, 9, b"}c${"),
                (IDENT, 0, 9, 10, b"d"),
                (TAIL, 0, 10, 13, b"}e`"),
            ],
        )

    def test_nested(self) -> None:
        self.assertEqual(
            kinds_of("`${{a:`${1}`}}`"),
            [HEAD, 109, IDENT, 99, HEAD, DECIMAL, TAIL, 132, TAIL],
        )
        self.assertEqual(kinds_of("{`${a}`}"), [109, HEAD, IDENT, TAIL, 132])


class RegularExpressions(unittest.TestCase):
    """Regular expressions, and the guess where they begin."""

    def test_whole(self) -> None:
        for source in ("/a/", "/a/gimsuyd", r"/\//", "/[/]/", r"/[\]/]/u", "/=/", "/é/"):
            with self.subTest(source):
                size = len(source.encode())
                self.assertEqual(scan(source), [(REGEXP, 1, 0, size, source.encode())])

    def test_begins(self) -> None:
        for before in ("", "x = ", "(", "[", "{", ",", ";", ":", "return ", "typeof ", "!",
                       "=> ", "x && ", "case ", "yield ", "await ", "`${", "if (x) ",
                       "while (f(x)) ", "for (;;) ", "for await (x of y) ", "in "):  # fmt: skip
            with self.subTest(before):
                after = "}`" if before == "`${" else ""
                self.assertIn(REGEXP, kinds_of(before + "/a/g" + after))

    def test_divides(self) -> None:
        for before in ("x", "1", "0x1n", "'s'", "`t`", "`${x}`", ")", "]", "}", "this",
                       "null", "true", "async", "from", "let", "x.return", "x?.if",
                       "this.#p", "x++", "x--", "f(x)", "x.if(y)", "/r/"):  # fmt: skip
            with self.subTest(before):
                found = kinds_of(before + " /a/ g")
                self.assertEqual(found[-4:], [141, IDENT, 141, IDENT])

    def test_divide_and_assign(self) -> None:
        self.assertEqual(kinds_of("x /= 2"), [IDENT, 142, DECIMAL])


class Refusals(unittest.TestCase):
    """What is not read is refused at its line and column."""

    def test_places(self) -> None:
        for source, line, column in (
            ("'a", 1, 1),
            ("x = 'a\n'", 1, 5),
            ("'a\r'", 1, 1),
            ("'\\", 1, 2),
            ("'a\\", 1, 3),
            ("/* a", 1, 1),
            ("a\n /*\n", 2, 2),
            ("`a", 1, 1),
            ("`a\\", 1, 1),
            ("`a${b", 1, 1),
            ("x `a${`b${c}d`", 1, 3),
            ("x = /a", 1, 5),
            ("x = /a\n/", 1, 5),
            ("x = /a\\\n/", 1, 5),
            ("x = /[/]", 1, 5),
            (r"'\07'", 1, 2),
            (r"'a\1'", 1, 3),
            (r"'\8'", 1, 2),
            (r"'\00'", 1, 2),
            (r"'\x4'", 1, 2),
            (r"'\xg0'", 1, 2),
            (r"'\u004'", 1, 2),
            (r"'\u{}'", 1, 2),
            (r"'\u{110000}'", 1, 2),
            (r"'\u{41'", 1, 2),
            (r"'\u{ 41}'", 1, 2),
            (r"'\u{4_1}'", 1, 2),
            (r"\u0031", 1, 1),
            (r"a\u0020", 1, 2),
            (r"a\x41", 1, 2),
            (r"\uD800", 1, 1),
            (r"\uD835\uDD38", 1, 1),
            (r"\u{110000}", 1, 1),
            ("#", 1, 1 + 1),
            ("# a", 1, 2),
            ("#1", 1, 2),
            ("x #!", 1, 4),
            ("017", 1, 1),
            ("08", 1, 1),
            ("0_1", 1, 1),
            ("1_", 1, 2),
            ("1__0", 1, 2),
            ("1._5", 1, 3),
            ("1e", 1, 2),
            ("1e+", 1, 2),
            ("0x", 1, 2),
            ("0xg", 1, 2),
            ("0b12", 1, 4),
            ("0o8", 1, 2),
            ("1.5n", 1, 4),
            ("1e3n", 1, 4),
            ("1a", 1, 2),
            ("3in x", 1, 2),
            ("1\\u0061", 1, 2),
            ("a\r\nb\u2028 \u0000", 3, 2),
            ("a \u0085", 1, 3),
            ("😀", 1, 1),
            ("'😀' ⸯ", 1, 5),
        ):
            with self.subTest(source):
                with self.assertRaises(tokens.Refused) as caught:
                    tokens.encode(source.encode("utf-8"))
                at = tokens.line_and_column(source, caught.exception.at)
                self.assertEqual(at, (line, column), caught.exception.message)

    def test_not_utf_8(self) -> None:
        for source in (b"a\nb \xff", b"a\nb \xed\xa0\x80", b"a\nb \xc3", b"a\nb \xc0\x80"):
            with self.subTest(source):
                with self.assertRaises(tokens.Refused) as caught:
                    tokens.encode(source)
                self.assertEqual(caught.exception.at, 4)

    def test_lengths(self) -> None:
        longest = "x" * 65_535
        self.assertEqual(scan(longest), [(IDENT, 1, 0, 65_535, longest.encode())])
        self.assertEqual(len(scan("'" + "x" * 65_533 + "'")[0].text), 65_533)
        for source in (longest + "x", "'" + "x" * 65_534 + "'", "`" + "é" * 32_767 + "`"):
            with self.assertRaises(tokens.Refused) as caught:
                tokens.encode(("a\n" + source).encode("utf-8"))
            self.assertEqual(caught.exception.at, 2)
            self.assertIn("65,535", caught.exception.message)

    def test_sizes(self) -> None:
        tokens.check_size(4_294_967_295, "text")
        with self.assertRaises(tokens.TooLarge):
            tokens.check_size(4_294_967_296, "text")


class Command(unittest.TestCase):
    """The command line."""

    def setUp(self) -> None:
        self.directory = tempfile.TemporaryDirectory()
        self.addCleanup(self.directory.cleanup)
        self.path = Path(self.directory.name)
        self.out = str(self.path / "out")

    def run_main(self, *arguments: str) -> tuple[int, str, str]:
        out, err = io.StringIO(), io.StringIO()
        with redirect_stdout(out), redirect_stderr(err):
            status = tokens.main(list(arguments))
        return status, out.getvalue(), err.getvalue()

    def names(self) -> list[str]:
        return sorted(path.name for path in self.path.iterdir())

    def test_file(self) -> None:
        source = self.path / "a.js"
        source.write_bytes(b"x")
        self.assertEqual(self.run_main(str(source), self.out), (0, "", ""))
        self.assertEqual(self.names(), ["a.js", "out.tok", "out.txt"])
        record = bytes.fromhex("04 01 00000000 0100 00000000 0100")
        self.assertEqual((self.path / "out.tok").read_bytes(), record)
        self.assertEqual((self.path / "out.txt").read_bytes(), b"x")

    def test_text(self) -> None:
        for text in ("é", "--x", "-"):
            self.assertEqual(self.run_main("-e", text, self.out), (0, "", ""))
            self.assertEqual((self.path / "out.txt").read_bytes(), text.encode())
        self.assertEqual(self.names(), ["out.tok", "out.txt"])

    def test_as_a_program(self) -> None:
        run = subprocess.run(
            [str(TOOLS / "tokens.py"), "-", self.out], input=b"a b", check=False
        )
        self.assertEqual(run.returncode, 0)
        self.assertEqual(len((self.path / "out.tok").read_bytes()), 28)

    def test_help(self) -> None:
        for argument in ("--help", "-h"):
            status, out, err = self.run_main(argument)
            self.assertEqual((status, err), (0, ""))
            for word in ("does not read", "JSX", "65,535", "4,294,967,295", "guess"):
                self.assertIn(word, out)

    def test_bad_input_writes_nothing(self) -> None:
        source = self.path / "bad.js"
        source.write_bytes("a;\n 'é' 017".encode("utf-8"))
        status, out, err = self.run_main(str(source), self.out)
        self.assertEqual((status, out), (1, ""))
        self.assertEqual(err, f"{source}:2:6: a number with a leading zero\n")
        self.assertEqual(self.names(), ["bad.js"])

    def test_bad_input_leaves_older_files(self) -> None:
        self.run_main("-e", "x", self.out)
        self.assertEqual(self.run_main("-e", "'", self.out)[0], 1)
        self.assertEqual((self.path / "out.txt").read_bytes(), b"x")
        self.assertEqual(self.names(), ["out.tok", "out.txt"])

    def test_too_large(self) -> None:
        source = self.path / "large.js"
        with open(source, "wb") as file:
            os.truncate(file.fileno(), 1 << 32)  # a hole: it takes no room
        status, _, err = self.run_main(str(source), self.out)
        self.assertEqual(status, 1)
        self.assertIn("4,294,967,295", err)
        self.assertEqual(self.names(), ["large.js"])

    def test_files_that_cannot_be_used(self) -> None:
        status, _, err = self.run_main(str(self.path / "none.js"), self.out)
        self.assertEqual(status, 1)
        self.assertIn("none.js", err)
        status, _, err = self.run_main("-e", "x", str(self.path / "none" / "out"))
        self.assertEqual(status, 1)
        self.assertEqual(self.names(), [])

    def test_wrong_arguments(self) -> None:
        for arguments in ([], ["x"], ["-e", "x"], ["a", "b", "c"], ["--what", "x"]):
            status, _, err = self.run_main(*arguments)
            self.assertEqual(status, 2)
            self.assertIn("--help", err)


class Tables(unittest.TestCase):
    """The list of kinds and its classes."""

    def test_numbers(self) -> None:
        self.assertEqual(len(kinds.KINDS), 169)
        self.assertEqual(len(kinds.NUMBER), 169)
        for name, number in (
            ("Eof", 0), ("Undetermined", 1), ("Skip", 2), ("HashbangComment", 3),
            ("Ident", 4), ("Await", 5), ("Import", 24), ("Null", 91), ("Amp", 92),
            ("Arrow", 148), ("Decimal", 149), ("HexBigInt", 159), ("Str", 160),
            ("PrivateIdentifier", 166), ("JSXText", 167), ("At", 168),
        ):  # fmt: skip
            self.assertEqual(kinds.NUMBER[name], number)

    def test_spellings(self) -> None:
        spelled = [(n, kind.text) for n, kind in enumerate(kinds.KINDS) if kind.text]
        self.assertEqual(spelled, pairs(KEYWORDS) + pairs(PUNCTUATORS))

    def test_match_keyword(self) -> None:
        for number, text in pairs(KEYWORDS):
            self.assertEqual(kinds.match_keyword(text), number)
        for text in ("", "x", "Import", "imports", "impor", "constructors", "é"):
            self.assertEqual(kinds.match_keyword(text), IDENT)

    def test_classes(self) -> None:
        words = range(5, 92)
        strict = {80, 81, 82, 83, 84, 85, 86, 87}
        reserved = set(range(5, 39)) | {88, 89, 90, 91}
        contextual = set(range(39, 80))
        self.assertEqual(
            {name: set(members) for name, members in kinds.CLASSES.items()},
            {
                "identifier name": {4, *words},
                "identifier": {4} | contextual | strict,
                "binding identifier": {4, 5, 88} | contextual | strict,
                "reserved": reserved,
                "contextual": contextual,
                "strict": strict,
                "future": strict - {82},
                "any keyword": set(words),
            },
        )


class Made(unittest.TestCase):
    """The files in the repository that are made by tools."""

    def run_tool(self, name: str) -> None:
        run = subprocess.run(
            [sys.executable, str(TOOLS / name), "--check"],
            capture_output=True,
            text=True,
            check=False,
        )
        self.assertEqual((run.returncode, run.stderr), (0, ""))

    def test_kinds_page(self) -> None:
        self.run_tool("kinds_table.py")

    def test_samples(self) -> None:
        self.run_tool("make-samples")

    def test_smile(self) -> None:
        samples = TOOLS.parent / "samples"
        source = (samples / "smile.js").read_bytes()
        self.assertEqual(source, b'import delta from "smile"; export { delta };\n')
        records = (samples / "smile.tok").read_bytes()
        found = read(records, (samples / "smile.txt").read_bytes())
        self.assertEqual(
            [token.kind for token in found],
            [24, IDENT, 40, STR, 134, 18, 109, IDENT, 132, 134],
        )

    def test_damaged(self) -> None:
        samples = TOOLS.parent / "samples"
        sound = (samples / "desk.tok").read_bytes()
        damaged = (samples / "damaged.tok").read_bytes()
        self.assertEqual(len(sound), len(damaged))
        differ = [at for at, pair in enumerate(zip(sound, damaged)) if pair[0] != pair[1]]
        self.assertEqual(differ, [len(sound) // 28 * 14 + 1])
        self.assertEqual(damaged[differ[0]], sound[differ[0]] | 8)
        self.assertEqual(
            (samples / "desk.txt").read_bytes(), (samples / "damaged.txt").read_bytes()
        )


if __name__ == "__main__":
    unittest.main()
