"""Methods whose bodies stand in brackets: `A class >> pattern [ body ]`."""
from __future__ import annotations

from dataclasses import dataclass

from interchange.places import Text
from interchange.tokens import Kind, Token

from .sources import Origin

_PATTERN = frozenset((Kind.IDENTIFIER, Kind.KEYWORD, Kind.OPERATOR))


@dataclass
class Bracketed:
    """A method in brackets: where its pattern begins, its brackets, and the index of the token behind it."""

    class_name: bytes
    class_side: bool
    start: int
    opening: int
    closing: int
    next: int

    def origin(self, whole: Origin) -> Origin:
        """The method's text. A line end or a blank stands for its opening bracket, and none for the closing one."""
        text = whole.bytes[self.start : self.closing]
        at = self.opening - self.start
        body = text[at + 1 :]
        breaks = body[: len(body) - len(body.lstrip())]
        mark = b" " if b"\n" in breaks or b"\r" in breaks else b"\n"
        part = whole.text.part(self.start, self.closing)
        return Origin(whole.source, Text(text[:at] + mark + body, part.start, part.skips))


def closing_bracket(tokens: list[Token], opening: int) -> int | None:
    """The index of the bracket that closes the one at an index, past all that is nested."""
    depth = 0
    for index in range(opening, len(tokens)):
        kind = tokens[index].kind
        if kind in (Kind.BLOCK_OPEN, Kind.BYTES_OPEN):
            depth += 1
        elif kind is Kind.BLOCK_CLOSE:
            depth -= 1
            if depth == 0:
                return index
    return None


def bracketed_method(tokens: list[Token], index: int, owner: bytes = b"") -> Bracketed | None:
    """The method that begins at an index; without `owner` the class is named before it."""
    name, side = owner, False
    words = [token.text for token in tokens[index : index + 3]]
    if words[1:2] == [b">>"] and tokens[index].kind is Kind.IDENTIFIER:
        name, index = words[0], index + 2
    elif words[1:3] == [b"class", b">>"] and tokens[index].kind is Kind.IDENTIFIER:
        name, side, index = words[0], True, index + 3
    if not name:
        return None
    end = index
    while end < len(tokens) and tokens[end].kind in _PATTERN:
        end += 1
    if end == index or end == len(tokens) or tokens[end].kind is not Kind.BLOCK_OPEN:
        return None
    closing = closing_bracket(tokens, end)
    if closing is None:
        return None
    return Bracketed(name.rpartition(b".")[2], side, tokens[index].start, tokens[end].start, tokens[closing].start,
                     closing + 1)
