"""Texts that remember where they stand in a file, and the lines and columns of a file."""
from __future__ import annotations

import re
from bisect import bisect_left, bisect_right
from typing import NamedTuple

WHITE = b"\t\n\f\r "


class Text(NamedTuple):
    """A part of a file as it is read, with doubled bangs or quotes taken to one.

    `skips` are the offsets in `bytes` of those that stand twice in the file, in order.
    """

    bytes: bytes
    start: int = 0
    skips: tuple[int, ...] = ()

    def place(self, offset: int) -> int:
        """The offset in the file of an offset in the text."""
        return self.start + offset + bisect_left(self.skips, offset)

    def part(self, start: int, end: int) -> Text:
        """The text between two offsets."""
        first, last = bisect_left(self.skips, start), bisect_left(self.skips, end)
        inside = tuple(skip - start for skip in self.skips[first:last])
        return Text(self.bytes[start:end], self.place(start), inside)

    def undoubled(self, mark: bytes) -> Text:
        """The text with each doubled `mark` (one byte) taken to one."""
        if mark + mark not in self.bytes:
            return self
        pairs = [match.start() for match in re.finditer(re.escape(mark + mark), self.bytes)]
        fresh = [pair - index for index, pair in enumerate(pairs)]
        kept = [skip - bisect_left(pairs, skip) for skip in self.skips]
        return Text(self.bytes.replace(mark + mark, mark), self.start, tuple(sorted(fresh + kept)))

    def trimmed(self) -> Text:
        """The text without white space at its ends."""
        start = len(self.bytes) - len(self.bytes.lstrip(WHITE))
        return self.part(start, max(start, len(self.bytes.rstrip(WHITE))))


class Lines:
    """The lines of a file, which end with LF, CR or CR LF."""

    def __init__(self, data: bytes) -> None:
        self.starts = [0] + [match.end() for match in re.finditer(rb"\r\n|\r|\n", data)]

    def place(self, offset: int) -> tuple[int, int]:
        """Line and column of an offset, each from 1, columns in bytes."""
        line = bisect_right(self.starts, offset)
        return line, offset - self.starts[line - 1] + 1
