"""A whole file: what it declares, and what each name and selector in it stands for."""
from __future__ import annotations

import bisect
import functools
from dataclasses import dataclass

from interchange import builtins
from interchange.chunks import Chunk
from interchange.elements import METHODS, Unit, UnitKind, read
from interchange.tokens import Kind, Token, tokens_of
from serving.texts import Analysis, Span, analysis

Key = tuple[object, ...]
Side = tuple[bytes, bool]
GLOBALS = {UnitKind.GLOBAL_VARIABLE: "variable", UnitKind.GLOBAL_CONSTANT: "constant"}
POOLED = {UnitKind.POOL_VARIABLE: "variable", UnitKind.POOL_CONSTANT: "constant"}


@dataclass(frozen=True, slots=True)
class Occurrence:
    """A name or selector at a place of the file: what it stands for, where its parts stand, and in which role.

    Roles are declares, reads, assigns, sends, implements and names (a symbol that is spelled as a selector).
    """

    key: Key
    spans: tuple[Span, ...]
    role: str
    unit: int


def selector(name: bytes) -> Key:
    """What a selector stands for."""
    return ("selector", name)


class Index:
    """The names and selectors of one file."""

    def __init__(self, data: bytes):
        self.file = read(data)
        self.units = self.file.units
        self.classes = self.file.classes()
        self.pools: dict[bytes, set[bytes]] = {}
        self.globals: set[bytes] = set()
        self.seen: dict[Side, Names] = {}
        for unit in self.units:
            if unit.kind is UnitKind.POOL:
                self.pools.setdefault(unit.name, set())
            elif unit.kind in POOLED:
                self.pools.setdefault(unit.pool, set()).add(unit.name)
            elif unit.kind in GLOBALS:
                self.globals.add(unit.name)

    @functools.cached_property
    def common(self) -> dict[bytes, Key]:
        """The names that can be seen from everywhere."""
        found: dict[bytes, Key] = {name: ("class", name) for name in (*builtins.classes(), *self.classes)}
        found[b"Transcript"] = ("Transcript",)
        found.update((name, ("global", name)) for name in self.globals)
        return found

    # what stands in headers and texts

    @functools.cached_property
    def occurrences(self) -> list[Occurrence]:
        """All names and selectors of the file."""
        found: list[Occurrence] = []
        for number, unit in enumerate(self.units):
            found += self.header(number, unit)
            if unit.text is not None:
                found += self.text(number, unit, unit.text)
        return found

    def header(self, number: int, unit: Unit) -> list[Occurrence]:
        """The names of a unit's header."""
        place = unit.header.text.place
        return [
            Occurrence(key, ((place(start), place(end)),), role, number)
            for key, (start, end), role in self.header_names(unit)
        ]

    def header_names(self, unit: Unit) -> list[tuple[Key, Span, str]]:
        """What the names of a unit's header stand for, where each stands in the header's text, and its role."""
        if unit.kind is UnitKind.CLASS:
            return class_names(unit.header.text.bytes, unit.name, unit.superclass)
        tokens = header_tokens(unit.header.text.bytes)
        strings = [token for token in tokens if token.kind is Kind.STRING]
        first = (tokens[0].start, tokens[0].end) if tokens else (0, 0)
        if unit.kind in GLOBALS:
            return [(("global", unit.name), inner(strings[0]), "declares")]
        if unit.kind is UnitKind.POOL:
            return [(("pool", unit.name), inner(strings[0]), "declares")]
        if unit.kind in POOLED or unit.kind is UnitKind.POOL_INITIALIZER:
            role = "declares" if unit.kind in POOLED else "assigns"
            variable = (("pool variable", unit.pool, unit.name), inner(strings[0]), role)
            return [(("pool", unit.pool), first, "reads"), variable]
        if unit.kind is UnitKind.INITIALIZER and unit.name in self.globals:
            return [(("global", unit.name), first, "assigns")]
        if unit.kind in METHODS or unit.kind is UnitKind.INITIALIZER:
            return [(("class", unit.name), first, "reads")]
        return []

    def text(self, number: int, unit: Unit, chunk: Chunk) -> list[Occurrence]:
        """The names and selectors of a method or body."""
        analysis = self.analysis(unit)
        place = chunk.text.place

        def at(spans: tuple[Span, ...]) -> tuple[Span, ...]:
            return tuple((place(start), place(end)) for start, end in spans)

        found: list[Occurrence] = []
        if analysis.pattern:
            found.append(Occurrence(selector(analysis.selector), at(analysis.pattern), "implements", number))
        for send in analysis.sends:
            found.append(Occurrence(selector(send.selector), at(send.parts), "sends", number))
        for symbol, span in analysis.symbols:
            found.append(Occurrence(selector(symbol), at((span,)), "names", number))
        names = self.seen_from(unit)
        for use in analysis.uses:
            key = ("local", number, use.scope, use.name) if use.scope is not None else names.key(use.name)
            found.append(Occurrence(key, at((use.span,)), use.role, number))
        return found

    def analysis(self, unit: Unit) -> Analysis:
        """What stands in the text of a unit."""
        return analysis(unit.text.text.bytes if unit.text else b"", unit.kind in METHODS)

    @functools.cached_property
    def texts(self) -> list[tuple[Unit, Chunk, Analysis]]:
        """Each unit with a text, and what stands in it."""
        return [(unit, unit.text, self.analysis(unit)) for unit in self.units if unit.text]

    def above(self, name: bytes) -> list[bytes]:
        """A class and those above it, from the file and built in."""
        found: list[bytes] = []
        while name and name not in found:
            found.append(name)
            unit = self.classes.get(name)
            name = unit.superclass if unit else builtins.classes().get(name) or b""
        return found

    def side_of(self, unit: Unit) -> Side:
        """From which class, and from which side of it, a unit's text sees names."""
        if unit.kind in METHODS:
            return unit.name, unit.class_side
        if unit.kind is UnitKind.INITIALIZER and unit.name in self.classes:
            return unit.name, True
        return b"UndefinedObject", False

    def seen_from(self, unit: Unit) -> Names:
        """The names that a unit's text sees beyond its own."""
        return self.names(self.side_of(unit))

    def names(self, side: Side) -> Names:
        """The names that a side of a class sees."""
        if side not in self.seen:
            self.seen[side] = Names(self.names_of(*side), self.common)
        return self.seen[side]

    def names_of(self, name: bytes, class_side: bool) -> dict[bytes, Key]:
        """Variables of a class and of those above, and of their pools."""
        kind = "class instance variable" if class_side else "instance variable"
        found: dict[bytes, Key] = {}
        units = [self.classes[one] for one in reversed(self.above(name)) if one in self.classes]
        for unit in units:
            for pool in reversed(unit.names.pools):
                found.update((word, ("pool variable", pool, word)) for word in self.pools.get(pool, ()))
            found.update((word, ("class variable", unit.name, word)) for word in unit.names.class_variables)
        for unit in units:
            words = unit.names.class_instance if class_side else unit.names.instance
            found.update((word, (kind, unit.name, word)) for word in words)
        return found

    @functools.cached_property
    def read(self) -> set[Key]:
        """What is read somewhere by a name that its text doesn't declare."""
        by_side: dict[Side, set[bytes]] = {}
        for unit, _, found in self.texts:
            by_side.setdefault(self.side_of(unit), set()).update(found.read)
        return {self.names(side).key(name) for side, names in by_side.items() for name in names}

    # what is asked

    @functools.cached_property
    def by_key(self) -> dict[Key, list[Occurrence]]:
        """All places of what a name or selector stands for."""
        found: dict[Key, list[Occurrence]] = {}
        for one in self.occurrences:
            found.setdefault(one.key, []).append(one)
        return found

    @functools.cached_property
    def by_place(self) -> list[tuple[int, int, Occurrence]]:
        """All places in order."""
        return sorted(((start, end, one) for one in self.occurrences for start, end in one.spans), key=lambda row: row[:2])

    def at(self, offset: int) -> Occurrence | None:
        """What stands at an offset, or ends there."""
        place = bisect.bisect_right(self.by_place, offset, key=lambda row: row[0])
        for start, end, one in reversed(self.by_place[max(place - 3, 0) : place]):
            if start <= offset <= end:
                return one
        return None

    def unit_at(self, offset: int) -> int | None:
        """The unit in which an offset stands."""
        for number, unit in enumerate(self.units):
            if unit.header.start <= offset <= (unit.last or unit.header).end:
                return number
        return None

    def implementors(self, name: bytes) -> list[Occurrence]:
        """The methods of the file with this selector."""
        return [one for one in self.by_key.get(selector(name), []) if one.role == "implements"]


@dataclass(frozen=True, slots=True)
class Names:
    """What names stand for, seen from a side of a class: those that can be seen from there alone, and the others."""

    own: dict[bytes, Key]
    common: dict[bytes, Key]

    def key(self, name: bytes) -> Key:
        """What a name stands for; one that nothing declares stands for itself."""
        return self.own.get(name) or self.common.get(name) or ("unknown", name)

    @property
    def all(self) -> dict[bytes, Key]:
        """All names that can be seen."""
        return {**self.common, **self.own}


@functools.lru_cache(maxsize=65536)
def class_names(text: bytes, named: bytes, superclass: bytes) -> list[tuple[Key, Span, str]]:
    """What the names of a class element stand for, where each stands, and its role."""
    name, above, instance, shared, pools, own = [token for token in header_tokens(text) if token.kind is Kind.STRING]
    found: list[tuple[Key, Span, str]] = [
        (("class", named), inner(name), "declares"),
        (("class", superclass), inner(above), "reads"),
    ]
    for token, kind in ((instance, "instance variable"), (shared, "class variable"), (own, "class instance variable")):
        found += [((kind, named, word), span, "declares") for word, span in words(token)]
    return found + [(("pool", word), span, "reads") for word, span in words(pools)]


@functools.lru_cache(maxsize=65536)
def header_tokens(text: bytes) -> list[Token]:
    """The tokens of a header."""
    return tokens_of(text).tokens


def inner(token: Token) -> Span:
    """Where the text of a string stands, without its quotes."""
    return token.start + 1, token.end - 1


def words(token: Token) -> list[tuple[bytes, Span]]:
    """The words of a string, with where each stands."""
    found = []
    place = 0
    for word in token.value.split():
        place = token.value.index(word, place)
        start = token.start + 1 + place
        found.append((word, (start, start + len(word))))
        place += len(word)
    return found
