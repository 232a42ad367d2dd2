"""Files, places in them, and what is reported of them."""
from __future__ import annotations

from dataclasses import dataclass, field
from functools import cached_property

from interchange.places import Lines, Text

from .tools import Format, Tool, format_of


@dataclass(eq=False)
class Source:
    """A file: the name that reports give it, its bytes, its place among the files, and the tool that wrote it.

    `is_package` is whether it is of a package that is loaded as a whole, which initializes classes.
    """

    name: str
    data: bytes
    number: int
    tool: Tool
    is_package: bool = False

    @cached_property
    def format(self) -> Format:
        return format_of(self.data)

    @cached_property
    def lines(self) -> Lines:
        return Lines(self.data)

    def whole(self) -> Text:
        """The file's text, without a byte order mark."""
        start = 3 if self.data.startswith(b"\xef\xbb\xbf") else 0
        return Text(self.data[start:], start)


@dataclass(frozen=True)
class Spot:
    """A place in a file."""

    source: Source
    offset: int

    def __str__(self) -> str:
        return "%s:%d:%d" % (self.source.name, *self.source.lines.place(self.offset))


@dataclass(frozen=True)
class Origin:
    """A text and the file that it is from."""

    source: Source
    text: Text

    @property
    def bytes(self) -> bytes:
        return self.text.bytes

    def spot(self, offset: int = 0) -> Spot:
        """The place in the file of an offset in the text."""
        return Spot(self.source, self.text.place(offset))

    def part(self, start: int, end: int) -> Origin:
        return Origin(self.source, self.text.part(start, end))


@dataclass
class Report:
    """What is refused and what is warned of, told in the order of files and places."""

    refusals: list[tuple[Spot, str]] = field(default_factory=list)
    warnings: list[tuple[Spot, str]] = field(default_factory=list)
    told: set[tuple[object, ...]] = field(default_factory=set)

    def refuse(self, spot: Spot, text: str) -> None:
        self.refusals.append((spot, text))

    def warn(self, spot: Spot, text: str, *key: object) -> None:
        """Warns, but only once for one key where there is one."""
        if key and key in self.told:
            return
        self.told.add(key)
        self.warnings.append((spot, text))

    def lines(self) -> list[str]:
        """All lines, each place and text once."""
        told = [(spot, text) for spot, text in self.refusals]
        told += [(spot, "warning: " + text) for spot, text in self.warnings]
        told.sort(key=lambda line: (line[0].source.number, line[0].offset))
        return list(dict.fromkeys("%s: %s" % line for line in told))


def shown(text: bytes) -> str:
    """Bytes of a file as they are shown in a report."""
    return text.decode("utf-8", "backslashreplace")
