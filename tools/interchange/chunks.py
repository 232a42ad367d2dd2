"""Divides a file into texts that end with a bang, as `stx` does."""
from __future__ import annotations

from collections.abc import Iterator
from typing import NamedTuple

from .places import WHITE, Text


class Chunk(NamedTuple):
    """A text of the file: its number among those that aren't white space alone (from 1), and whether a bang ends it.

    `start` and `end` are offsets in the file, without the bang. A `blank` one is white space alone, and has the number of the
    next one that isn't.
    """

    text: Text
    number: int
    start: int
    end: int
    ended: bool
    blank: bool


def separator(data: bytes, at: int) -> int:
    """The offset of the first bang from `at` on that isn't one of a doubled pair, or the length of the file."""
    while True:
        bang = data.find(b"!", at)
        if bang < 0:
            return len(data)
        if data[bang + 1 : bang + 2] != b"!":
            return bang
        at = bang + 2


def chunks(data: bytes) -> Iterator[Chunk]:
    """All texts of the file in order, blank ones too. What follows the last bang is the last one, and isn't ended."""
    number = 1
    at = 0
    while True:
        end = data.find(b"!", at)
        if end < 0 or data.startswith(b"!!", end):
            end = separator(data, at)
            text = Text(data[at:end], at).undoubled(b"!")
        else:
            text = Text(data[at:end], at)
        blank = not text.bytes.strip(WHITE)
        ended = end < len(data)
        yield Chunk(text, number, at, end, ended, blank)
        if not ended:
            return
        number += not blank
        at = end + 1


def doubled(text: bytes) -> bytes:
    """A text as it is written in a file: each bang twice."""
    return text.replace(b"!", b"!!")
