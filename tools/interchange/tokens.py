"""A text as tokens: those of `stx`, or in a foreign text also those of other Smalltalks.

`tokens_of` never fails: what begins no token is a token of the kind FAULT, whose value is the reason, and reading goes
on behind it. In a text of `stx` the reasons are those of docs/interchange.md. No FAULT may stand in a body, so the
first fault of a text is the first token that can't stand, whatever its kind.
"""
from __future__ import annotations

import re
from dataclasses import dataclass
from enum import Enum

TOO_LARGE = 1 << 127  # an integer above it can't be written; it can itself, behind a minus sign


class Kind(Enum):
    """What a token is. Those from FLOAT on are of foreign texts alone."""

    IDENTIFIER = "identifier"
    KEYWORD = "keyword"
    OPERATOR = "operator"
    INTEGER = "integer"
    CHARACTER = "character"
    STRING = "string"
    SYMBOL = "symbol"
    QUOTED_SYMBOL = "quoted symbol"
    ARRAY_OPEN = "#("
    PAREN_OPEN = "("
    PAREN_CLOSE = ")"
    BLOCK_OPEN = "["
    BLOCK_CLOSE = "]"
    COLON = ":"
    ASSIGN = ":="
    CARET = "^"
    PERIOD = "."
    SEMICOLON = ";"
    FAULT = "fault"
    END = "end"
    FLOAT = "float"
    SCALED = "scaled decimal"
    BRACE_OPEN = "{"
    BRACE_CLOSE = "}"
    BYTES_OPEN = "#["
    BINDING_OPEN = "#{"
    COMPILED_OPEN = "##("
    BANG = "!"

    # each stands for itself alone, which is quicker to look up than its word
    __hash__ = object.__hash__


@dataclass(frozen=True)
class Dialect:
    """Which further tokens there are. `foreign` brings braces, byte arrays, floats and the like."""

    foreign: bool = False
    underscore_assigns: bool = False
    dotted_names: bool = False
    digit_groups: bool = False
    bang_ends: bool = False


STX = Dialect()


@dataclass(slots=True)
class Token:
    """A token and the offsets in its text at which it stands.

    `value` is the number of an INTEGER, the byte of a CHARACTER, the text of a STRING or symbol, and the reason of a
    FAULT. A FLOAT or SCALED has none.
    """

    kind: Kind
    start: int
    end: int
    text: bytes
    value: int | bytes | str | None = None


@dataclass(frozen=True)
class Tokens:
    """The tokens of a text, without an END, and the comments between them as (start, end) with their quotes."""

    tokens: list[Token]
    comments: list[tuple[int, int]]


_WHITE = re.compile(rb"[\t\n\x0c\r ]+")
_IDENTIFIER = re.compile(rb"[A-Za-z_][A-Za-z0-9_]*")
_DOTTED = re.compile(rb"(?:[A-Z][A-Za-z0-9_]*\.(?=[A-Z]))*[A-Za-z_][A-Za-z0-9_]*")
_KEYWORDS = re.compile(rb"(?:[A-Za-z_][A-Za-z0-9_]*:(?!=))+")
_OPERATORS = re.compile(rb"[!%&*+,/<>=?@\\~|\-]+")
_RADIX = re.compile(rb"([0-9]+)r([0-9A-Z]*)")
_DIGITS = re.compile(rb"[0-9]+")
_FOREIGN_INTEGER = re.compile(rb"([0-9]+)(?:r(-?)([0-9A-Z]+))?")
_GROUPED_INTEGER = re.compile(rb"([0-9]+(?:_[0-9]+)*)(?:r(-?)([0-9A-Z]+(?:_[0-9A-Z]+)*))?")
_FRACTION = re.compile(rb"\.[0-9][0-9A-Z]*")
_EXPONENT = re.compile(rb"[edq](-?)([0-9]+)")
_SCALE = re.compile(rb"s[0-9]*(?![A-Za-z0-9_])")
_UTF_8 = re.compile(rb"[\xc2-\xf4][\x80-\xbf]+")
_SIGNS = {kind.value.encode(): kind for kind in (
    Kind.PAREN_OPEN, Kind.PAREN_CLOSE, Kind.BLOCK_OPEN, Kind.BLOCK_CLOSE, Kind.CARET, Kind.PERIOD, Kind.SEMICOLON)}
_BRACES = {b"{": Kind.BRACE_OPEN, b"}": Kind.BRACE_CLOSE}
_LETTERS = frozenset(b"ABCDEFGHIJKLMNOPQRSTUVWXYZabcdefghijklmnopqrstuvwxyz_")
_FIGURES = frozenset(b"0123456789")
_OPERATOR_BYTES = frozenset(b"!%&*+,/<>=?@\\~|-")


def tokens_of(text: bytes, dialect: Dialect = STX) -> Tokens:
    """All tokens and comments of the text."""
    found = Tokens([], [])
    reader = _Reader(text, dialect)
    at = 0
    while at < len(text):
        white = _WHITE.match(text, at)
        if white:
            at = white.end()
        elif text[at] == 0x22 and text.find(b'"', at + 1) >= 0:
            end = text.find(b'"', at + 1) + 1
            found.comments.append((at, end))
            at = end
        else:
            token = reader.token(at)
            found.tokens.append(token)
            at = token.end
    return found


def value_of(figures: bytes, radix: int) -> int | None:
    """The number that figures make, None where one isn't below the radix. Past 2^127 only this is told."""
    value = 0
    for byte in figures:
        figure = byte - 0x30 if byte < 0x3A else byte - 0x41 + 10
        if figure >= radix:
            return None
        value = min(value * radix + figure, TOO_LARGE + 1)
    return value


class _Reader:
    """Reads one token at a time."""

    def __init__(self, text: bytes, dialect: Dialect) -> None:
        self.text = text
        self.dialect = dialect

    def made(self, kind: Kind, start: int, end: int, value: int | bytes | str | None = None) -> Token:
        return Token(kind, start, end, self.text[start:end], value)

    def fault(self, start: int, reason: str, end: int | None = None) -> Token:
        return self.made(Kind.FAULT, start, start + 1 if end is None else end, reason)

    def token(self, at: int) -> Token:
        """The token that begins at `at`, where neither white space nor a comment stands."""
        byte = self.text[at]
        if byte in _LETTERS:
            return self.word(at)
        if byte in _FIGURES:
            return self.foreign_number(at) if self.dialect.foreign else self.number(at)
        if byte == 0x21 and self.dialect.bang_ends:
            return self.made(Kind.BANG, at, at + 1)
        if byte in _OPERATOR_BYTES:
            return self.made(Kind.OPERATOR, at, self.operator_end(at))
        if byte == 0x22:
            return self.fault(at, "OpenComment", len(self.text))
        return self.sign(at)

    def sign(self, at: int) -> Token:
        sign = self.text[at : at + 1]
        if sign == b"$":
            if at + 1 == len(self.text):
                return self.fault(at, "BadCharacter")
            return self.made(Kind.CHARACTER, at, self.character_end(at), self.text[at + 1])
        if sign == b"'":
            return self.quoted(Kind.STRING, at, at)
        if sign == b"#":
            return self.hashed(at)
        if sign == b":":
            assigns = self.text[at + 1 : at + 2] == b"="
            return self.made(Kind.ASSIGN if assigns else Kind.COLON, at, at + 2 if assigns else at + 1)
        if sign in _SIGNS:
            return self.made(_SIGNS[sign], at, at + 1)
        if sign in _BRACES and self.dialect.foreign:
            return self.made(_BRACES[sign], at, at + 1)
        return self.fault(at, "BadCharacter")

    def character_end(self, at: int) -> int:
        """A character is one byte; in a foreign text the bytes of one in UTF-8 are taken together."""
        found = _UTF_8.match(self.text, at + 1) if self.dialect.foreign else None
        return found.end() if found else at + 2

    def word(self, at: int) -> Token:
        form = _DOTTED if self.dialect.dotted_names else _IDENTIFIER
        end = form.match(self.text, at).end()
        if self.text[end : end + 1] == b":" and self.text[end + 1 : end + 2] != b"=":
            return self.made(Kind.KEYWORD, at, end + 1)
        if self.dialect.underscore_assigns and self.text[at:end] == b"_":
            return self.made(Kind.ASSIGN, at, end)
        return self.made(Kind.IDENTIFIER, at, end)

    def operator_end(self, at: int) -> int:
        """The longest run, cut before a minus sign that isn't first in it and stands before a digit."""
        end = _OPERATORS.match(self.text, at).end()
        if self.dialect.bang_ends and b"!" in self.text[at:end]:
            end = self.text.index(b"!", at)
        negative = end - at > 1 and self.text[end - 1 : end] == b"-" and self.text[end : end + 1].isdigit()
        return end - 1 if negative else end

    def quoted(self, kind: Kind, start: int, quote: int) -> Token:
        """A string, or the symbol whose string begins at `quote`. A fault stands at the quote."""
        at = quote + 1
        while True:
            end = self.text.find(b"'", at)
            if end < 0:
                return self.fault(quote, "OpenString", len(self.text))
            if self.text[end + 1 : end + 2] != b"'":
                return self.made(kind, start, end + 1, self.text[quote + 1 : end].replace(b"''", b"'"))
            at = end + 2

    def hashed(self, at: int) -> Token:
        """What begins with a number sign."""
        text = self.text
        if text[at + 1 : at + 2] == b"(":
            return self.made(Kind.ARRAY_OPEN, at, at + 2)
        if text[at + 1 : at + 2] == b"'":
            return self.quoted(Kind.QUOTED_SYMBOL, at, at + 1)
        if self.dialect.foreign:
            for opening, kind in ((b"#[", Kind.BYTES_OPEN), (b"#{", Kind.BINDING_OPEN), (b"##(", Kind.COMPILED_OPEN)):
                if text.startswith(opening, at):
                    return self.made(kind, at, at + len(opening))
            if text.startswith(b"##", at) and text[at + 2 : at + 3] != b"#":
                symbol = self.hashed(at + 1)
                return self.made(symbol.kind, at, symbol.end, symbol.value)
        for form in (_KEYWORDS, _IDENTIFIER, _OPERATORS):
            found = form.match(text, at + 1)
            if found:
                return self.made(Kind.SYMBOL, at, found.end(), found.group())
        return self.fault(at, "BadCharacter")

    def number(self, at: int) -> Token:
        """A number of `stx`; the reasons are tried in the order of docs/language.md."""
        radix = _RADIX.match(self.text, at)
        found = radix or _DIGITS.match(self.text, at)
        end = found.end()
        if radix:
            base = value_of(radix[1], 10)
            value = value_of(radix[2], base) if 2 <= base <= 36 and radix[2] else None
            if value is None:
                return self.fault(at, "BadRadix", end)
        else:
            value = value_of(found[0], 10)
        behind = self.text[end : end + 2]
        if behind[:1] in (b"e", b"d", b"q", b"s") or (behind[:1] == b"." and behind[1:].isdigit()):
            return self.fault(at, "FloatOutside", end)
        if value > TOO_LARGE:
            return self.fault(at, "IntegerTooLarge", end)
        return self.made(Kind.INTEGER, at, end, value)

    def foreign_number(self, at: int) -> Token:
        """A number as other Smalltalks write it. An INTEGER's value may be negative (16r-1F) or have an exponent."""
        found = (_GROUPED_INTEGER if self.dialect.digit_groups else _FOREIGN_INTEGER).match(self.text, at)
        end = found.end()
        radix = 10
        figures = found[1]
        if found[3]:
            radix, figures = value_of(found[1].replace(b"_", b""), 10), found[3]
        value = value_of(figures.replace(b"_", b""), radix) if 2 <= radix <= 36 else None
        if value is None:
            return self.fault(at, "BadRadix", end)
        fraction = _FRACTION.match(self.text, end)
        end = fraction.end() if fraction else end
        exponent = _EXPONENT.match(self.text, end)
        end = exponent.end() if exponent else end
        scale = _SCALE.match(self.text, end)
        if scale:
            return self.made(Kind.SCALED, at, scale.end())
        if fraction or (exponent and (exponent[1] or self.text[exponent.start()] != 0x65)):
            return self.made(Kind.FLOAT, at, end)
        if exponent and value:
            value = min(value * radix ** min(int(exponent[2][:4]), 200), TOO_LARGE + 1)
        if value > TOO_LARGE:
            return self.fault(at, "IntegerTooLarge", end)
        return self.made(Kind.INTEGER, at, end, -value if found[2] else value)
