"""The text of an open file, with positions as the protocol counts them: lines, and UTF-16 units in a line."""
import bisect
import re
from typing import Any

LINE_END = re.compile("\r\n|\n|\r")
# the bytes of which each stands behind another of its letter
BEHIND = bytes(range(0x80, 0xC0))


def starts_of(text: str) -> list[int]:
    """Where each line of a text begins. A line ends with CR LF, LF or CR."""
    return [0, *(found.end() for found in LINE_END.finditer(text))]


def units_of(text: str) -> int:
    """How many UTF-16 units a text takes."""
    return len(text) + sum(1 for letter in text if ord(letter) > 0xFFFF) if not text.isascii() else len(text)


def letters_in(text: str, units: int) -> int:
    """How many letters of a text stand in its first so many units; a position within a letter is that in front of it."""
    if text.isascii():
        return min(units, len(text))
    taken = 0
    for place, letter in enumerate(text):
        taken += 2 if ord(letter) > 0xFFFF else 1
        if taken > units:
            return place
    return len(text)


class Buffer:
    """An open text at one version. It is never changed: a change makes another."""

    def __init__(self, uri: str, version: int | None, text: str):
        self.uri = uri
        self.version = version
        self.text = text
        self.starts = starts_of(text)
        self._bytes: bytes | None = None

    @property
    def bytes(self) -> bytes:
        """The text as the bytes of a file."""
        if self._bytes is None:
            self._bytes = self.text.encode("utf-8", "surrogatepass")
        return self._bytes

    def line_text(self, line: int) -> str:
        """A line without its end."""
        end = self.starts[line + 1] if line + 1 < len(self.starts) else len(self.text)
        return self.text[self.starts[line] : end].rstrip("\r\n")

    def place(self, position: dict[str, Any]) -> int:
        """The place in the text of a position; one past a line's end is the end of the line."""
        line, character = max(int(position["line"]), 0), max(int(position["character"]), 0)
        if line >= len(self.starts):
            return len(self.text)
        return self.starts[line] + letters_in(self.line_text(line), character)

    def position(self, place: int) -> dict[str, int]:
        """The position of a place in the text."""
        place = max(0, min(place, len(self.text)))
        line = bisect.bisect_right(self.starts, place) - 1
        return {"line": line, "character": units_of(self.text[self.starts[line] : place])}

    def range(self, first: int, last: int) -> dict[str, Any]:
        """The range between two places."""
        return {"start": self.position(first), "end": self.position(last)}

    def whole(self) -> dict[str, Any]:
        """The range of all of the text."""
        return self.range(0, len(self.text))

    def place_of_byte(self, offset: int) -> int:
        """The place in the text of the letter to which this byte of the file belongs."""
        if self.text.isascii():
            return min(offset, len(self.text))
        while self.bytes[offset : offset + 1] in BEHIND and offset < len(self.bytes):
            offset -= 1
        return len(self.bytes[:offset].translate(None, BEHIND))

    def byte_of_place(self, place: int) -> int:
        """The byte of the file at which this place of the text stands."""
        return place if self.text.isascii() else len(self.text[:place].encode("utf-8", "surrogatepass"))

    def changed(self, changes: list[dict[str, Any]], version: int | None) -> "Buffer":
        """The buffer behind these changes, each of which speaks of the text that the one before it left."""
        buffer = self
        for change in changes:
            text = str(change["text"])
            if change.get("range") is not None:
                first, last = buffer.place(change["range"]["start"]), buffer.place(change["range"]["end"])
                text = buffer.text[: min(first, last)] + text + buffer.text[max(first, last) :]
            buffer = Buffer(self.uri, version, text)
        return buffer
