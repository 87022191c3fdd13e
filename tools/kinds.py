"""The 169 token kinds, their numbers, and the classes they belong to.

This is the only place in tools/ where the kinds are written down.  A kind's
number is its position in `KINDS`.  Names, order and classes are those of
oxc_parser 0.156.0 (see NOTICE).
"""

from __future__ import annotations

from typing import NamedTuple


class Kind(NamedTuple):
    """One token kind.

    `text` is the one spelling of a keyword or punctuator, and empty for a
    kind that has many spellings or none; `what` says in words what it is.
    """

    name: str
    text: str
    what: str


def _words(names: str, what: str) -> list[Kind]:
    """Keyword kinds: the spelling of each is its name in small letters."""
    return [Kind(name, name.lower(), what) for name in names.split()]


def _marks(pairs: str) -> list[Kind]:
    """Punctuator kinds from alternating names and spellings."""
    words = pairs.split()
    return [
        Kind(name, text, "punctuator") for name, text in zip(words[::2], words[1::2])
    ]


KINDS: list[Kind] = [
    Kind("Eof", "", "the end: no token and no record from here on counts"),
    Kind("Undetermined", "", "what could not be read; a bad record reads as this"),
    Kind("Skip", "", "white space, a line break or a comment"),
    Kind("HashbangComment", "", "the first line, if it begins with `#!`"),
    Kind("Ident", "", "an identifier that is none of the words below"),
    *_words(
        """Await Break Case Catch Class Const Continue Debugger Default Delete Do
        Else Enum Export Extends Finally For Function If Import In Instanceof New
        Return Super Switch This Throw Try Typeof Var Void While With""",
        "keyword",
    ),
    *_words(
        "Async From Get Meta Of Set Target Accessor Source Defer",
        "contextual keyword",
    ),
    *_words(
        """Abstract As Asserts Assert Any Boolean Constructor Declare Infer
        Intrinsic Is KeyOf Module Namespace Never Out Readonly Require Number
        Object Satisfies String Symbol Type Undefined Unique Using Unknown Global
        BigInt Override""",
        "contextual keyword, most of them TypeScript's",
    ),
    *_words(
        "Implements Interface Let Package Private Protected Public Static Yield",
        "keyword of strict code",
    ),
    *_words("True False Null", "literal word"),
    *_marks(
        """Amp & Amp2 && Amp2Eq &&= AmpEq &= Bang ! Caret ^ CaretEq ^= Colon :
        Comma , Dot . Dot3 ... Eq = Eq2 == Eq3 === GtEq >= LAngle < LBrack [
        LCurly { LParen ( LtEq <= Minus - Minus2 -- MinusEq -= Neq != Neq2 !==
        Percent % PercentEq %= Pipe | Pipe2 || Pipe2Eq ||= PipeEq |= Plus +
        Plus2 ++ PlusEq += Question ? Question2 ?? Question2Eq ??= QuestionDot ?.
        RAngle > RBrack ] RCurly } RParen ) Semicolon ; ShiftLeft <<
        ShiftLeftEq <<= ShiftRight >> ShiftRight3 >>> ShiftRight3Eq >>>=
        ShiftRightEq >>= Slash / SlashEq /= Star * Star2 ** Star2Eq **=
        StarEq *= Tilde ~ Arrow =>"""
    ),
    Kind("Decimal", "", "a whole number in decimal, such as `42`"),
    Kind("Float", "", "a decimal number with a point, such as `0.25` or `1.`"),
    Kind("Binary", "", "a number in base two, such as `0b101`"),
    Kind("Octal", "", "a number in base eight, such as `0o17`"),
    Kind("Hex", "", "a number in base sixteen, such as `0x1F`"),
    Kind(
        "PositiveExponential", "", "a number with an exponent, such as `1e10` or `1e+10`"
    ),
    Kind("NegativeExponential", "", "a number with a negative exponent, such as `1e-10`"),
    Kind("DecimalBigInt", "", "a big integer in decimal, such as `42n`"),
    Kind("BinaryBigInt", "", "a big integer in base two, such as `0b101n`"),
    Kind("OctalBigInt", "", "a big integer in base eight, such as `0o17n`"),
    Kind("HexBigInt", "", "a big integer in base sixteen, such as `0x1Fn`"),
    Kind("Str", "", "a string literal; its text is its value"),
    Kind("RegExp", "", "a regular expression with its flags"),
    Kind("NoSubstitutionTemplate", "", "a whole template without `${`"),
    Kind("TemplateHead", "", "a template from its first backquote to its first `${`"),
    Kind("TemplateMiddle", "", "a template from a `}` to the next `${`"),
    Kind("TemplateTail", "", "a template from its last `}` to its last backquote"),
    Kind("PrivateIdentifier", "", "a name after `#`; its text leaves the `#` out"),
    Kind("JSXText", "", "text between JSX tags"),
    Kind("At", "@", "punctuator"),
]

#: A kind's number by its name.
NUMBER: dict[str, int] = {kind.name: number for number, kind in enumerate(KINDS)}

#: The largest number that is a kind.
LAST: int = NUMBER["At"]

_KEYWORD_NUMBERS = range(NUMBER["Await"], NUMBER["Null"] + 1)
_PUNCTUATOR_NUMBERS = [*range(NUMBER["Amp"], NUMBER["Arrow"] + 1), NUMBER["At"]]

#: The kind number of each keyword, by its spelling.
KEYWORDS: dict[str, int] = {KINDS[number].text: number for number in _KEYWORD_NUMBERS}

#: The kind number of each punctuator, by its spelling.
PUNCTUATORS: dict[str, int] = {
    KINDS[number].text: number for number in _PUNCTUATOR_NUMBERS
}


def _numbers(names: str) -> frozenset[int]:
    return frozenset(NUMBER[name] for name in names.split())


#: Words that are never the name of a variable in a module, `yield` and
#: `await` being let through where a binding identifier is asked for.
RESERVED = _numbers(
    """Await Break Case Catch Class Const Continue Debugger Default Delete Do Else
    Enum Export Extends False Finally For Function If Import In Instanceof New Null
    Return Super Switch This Throw True Try Typeof Var Void While With Yield"""
)

#: Words that mean something only where the grammar asks for them.
CONTEXTUAL = _numbers(
    """Async From Get Meta Of Set Target Accessor Source Defer Abstract As Asserts
    Assert Any Boolean Constructor Declare Infer Intrinsic Is KeyOf Module Namespace
    Never Out Readonly Require Number Object Satisfies String Symbol Type Undefined
    Unique Using Unknown Global BigInt Override"""
)

#: Words that strict code reserves.
STRICT_RESERVED = _numbers(
    "Implements Interface Let Package Private Protected Public Static"
)

#: Words kept for later versions of the language.
FUTURE_RESERVED = _numbers(
    "Implements Interface Package Private Protected Public Static"
)

#: Whatever may stand where any name may, such as after a dot.
IDENTIFIER_NAME = frozenset([NUMBER["Ident"], *_KEYWORD_NUMBERS])

#: An identifier name that is not reserved.
IDENTIFIER = IDENTIFIER_NAME - RESERVED

#: What may be bound: an identifier, or `yield` or `await`.
BINDING_IDENTIFIER = IDENTIFIER | _numbers("Yield Await")

#: Any of the four classes of words.
ANY_KEYWORD = RESERVED | CONTEXTUAL | STRICT_RESERVED | FUTURE_RESERVED

#: The classes in the order in which the table of kinds shows them.
CLASSES: dict[str, frozenset[int]] = {
    "identifier name": IDENTIFIER_NAME,
    "identifier": IDENTIFIER,
    "binding identifier": BINDING_IDENTIFIER,
    "reserved": RESERVED,
    "contextual": CONTEXTUAL,
    "strict": STRICT_RESERVED,
    "future": FUTURE_RESERVED,
    "any keyword": ANY_KEYWORD,
}


def match_keyword(text: str) -> int:
    """The kind number of a name: its keyword's, or Ident's if it is none."""
    return KEYWORDS.get(text, NUMBER["Ident"])
