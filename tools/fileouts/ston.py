"""STON, as far as Tonel files have it: keys and values that are symbols, strings, names, numbers, lists and braces."""
from __future__ import annotations

import re
from dataclasses import dataclass

_GAP = re.compile(rb'(?:\s+|"[^"]*")*')
_SYMBOL = re.compile(rb"#([A-Za-z0-9_.:/\-]+)")
_STRING = re.compile(rb"#?'((?:[^'\\]|\\.|'')*)'", re.DOTALL)
_WORD = re.compile(rb"[A-Za-z0-9_.\-+]+")
_ESCAPES = {b"\\n": b"\n", b"\\r": b"\r", b"\\t": b"\t"}
_DEEPEST = 50


@dataclass
class Entry:
    """A value and where it begins. A list has entries, another value bytes."""

    value: bytes | list["Entry"] | dict[bytes, "Entry"] | None
    start: int


class Ston:
    """Reads from an offset on. After a fault `at` is where it is."""

    def __init__(self, text: bytes, at: int) -> None:
        self.text = text
        self.at = at
        self.depth = 0

    def _gap(self) -> None:
        self.at = _GAP.match(self.text, self.at).end()

    def _take(self, sign: bytes) -> bool:
        self._gap()
        found = self.text.startswith(sign, self.at)
        self.at += len(sign) if found else 0
        return found

    def braces(self) -> dict[bytes, Entry] | None:
        """`{ key : value, … }`, None where it is no such thing."""
        found: dict[bytes, Entry] = {}
        if not self._take(b"{"):
            return None
        while not self._take(b"}"):
            key = self.value()
            if key is None or not isinstance(key.value, bytes) or not self._take(b":"):
                return None
            value = self.value()
            if value is None:
                return None
            found[key.value] = value
            if not self._take(b",") and not self._ends(b"}"):
                return None
        return found

    def _ends(self, sign: bytes) -> bool:
        self._gap()
        return self.text.startswith(sign, self.at)

    def value(self) -> Entry | None:
        """A value, None where there is none."""
        self._gap()
        start = self.at
        for form in (_STRING, _SYMBOL, _WORD):
            found = form.match(self.text, start)
            if found:
                self.at = found.end()
                return Entry(self._plain(found, form), start)
        if self.depth == _DEEPEST:
            return None
        self.depth += 1
        inner = self.braces() if self._ends(b"{") else self._list()
        self.depth -= 1
        return None if inner is None else Entry(inner, start)

    def _plain(self, found: re.Match[bytes], form: re.Pattern[bytes]) -> bytes:
        if form is _STRING:
            escaped = re.sub(rb"\\.", lambda match: _ESCAPES.get(match[0], match[0][1:]), found[1], flags=re.DOTALL)
            return escaped.replace(b"''", b"'")
        return found[1] if form is _SYMBOL else found[0]

    def _list(self) -> list[Entry] | None:
        found: list[Entry] = []
        if not self._take(b"["):
            return None
        while not self._take(b"]"):
            value = self.value()
            if value is None:
                return None
            found.append(value)
            if not self._take(b",") and not self._ends(b"]"):
                return None
        return found
