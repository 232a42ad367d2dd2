"""Changes of a text that nest: what is put before and behind a place, and what is replaced."""
from __future__ import annotations

import re
from dataclasses import dataclass, field

from interchange.tokens import Dialect, Kind, tokens_of

_CLOSES, _OPENS, _REPLACES = range(3)


@dataclass
class Edits:
    """Edits of one text. Outer ones are made before inner ones."""

    text: bytes
    made: list[tuple[int, int, int, int, bytes]] = field(default_factory=list)

    def replace(self, start: int, end: int, text: bytes) -> None:
        self.made.append((start, _REPLACES, len(self.made), end, text))

    def wrap(self, start: int, before: bytes, end: int, behind: bytes) -> None:
        """Puts a text before `start` and one behind `end`."""
        self.made.append((start, _OPENS, len(self.made), start, before))
        self.made.append((end, _CLOSES, -len(self.made), end, behind))

    def result(self) -> bytes:
        """The edited text."""
        pieces = []
        at = 0
        for start, _, _, end, text in sorted(self.made, key=lambda edit: edit[:3]):
            pieces.append(self.text[at:start])
            pieces.append(text)
            at = max(at, end)
        pieces.append(self.text[at:])
        return b"".join(pieces)


_LINE_END = re.compile(rb"\r\n?")


def with_line_feeds(text: bytes) -> bytes:
    """The text with each line end as LF. A carriage return behind `$` is a character, and stays."""
    if b"\r" not in text:
        return text
    kept = {token.start + 1 for token in tokens_of(text).tokens if token.kind is Kind.CHARACTER}
    return _LINE_END.sub(lambda end: end[0] if end.start() in kept else b"\n", text)


def trimmed(text: bytes, dialect: Dialect = Dialect()) -> bytes:
    """The text without white space at its ends. A blank behind `$` is a character, and stays."""
    short = text.strip(b"\t\n\f\r ")
    if short.endswith(b"$"):
        end = tokens_of(text, dialect).tokens[-1].end
        return text[:end].lstrip(b"\t\n\f\r ")
    return short
