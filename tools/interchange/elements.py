"""An interchange file as the units that it declares, after docs/interchange.md.

`read` never fails: what isn't an element is noted as a Trouble, and reading goes on with the next one. The texts of
methods and initializers aren't parsed before `Unit.parse` asks for it. Static rules aren't judged here.
"""
from __future__ import annotations

import re
from dataclasses import dataclass, field
from enum import Enum
from functools import lru_cache
from typing import NamedTuple

from .bodies import RESERVED, Body, Fault, Method, Parser
from .chunks import Chunk, chunks
from .places import WHITE
from .tokens import STX, Dialect, Kind, Token, tokens_of


class UnitKind(Enum):
    """What a unit is, by the words of `stx list` where it has them."""

    VERSION = "version"
    CLASS = "class"
    GLOBAL_VARIABLE = "variable"
    GLOBAL_CONSTANT = "constant"
    POOL = "pool"
    POOL_VARIABLE = "pool variable"
    POOL_CONSTANT = "pool constant"
    INITIALIZER = "initializer"
    POOL_INITIALIZER = "pool initializer"
    PROGRAM_INITIALIZER = "program initializer"
    METHOD = "method"
    CLASS_METHOD = "classMethod"
    COMMENT = "comment"

    # each stands for itself alone, which is quicker to look up than its word
    __hash__ = object.__hash__


METHODS = frozenset((UnitKind.METHOD, UnitKind.CLASS_METHOD))
INITIALIZERS = frozenset((UnitKind.INITIALIZER, UnitKind.POOL_INITIALIZER, UnitKind.PROGRAM_INITIALIZER))
WITH_TEXT = METHODS | INITIALIZERS


class Names(NamedTuple):
    """The names in a class element, those of each list in their order."""

    instance: tuple[bytes, ...] = ()
    class_variables: tuple[bytes, ...] = ()
    pools: tuple[bytes, ...] = ()
    class_instance: tuple[bytes, ...] = ()


@dataclass(slots=True)
class Unit:
    """One declaration, its annotations, and the chunks that it stands in.

    `name` is what it declares or speaks of: the class, global or pool, the class of a method, the target of an
    initializer, the name within `pool`, and the text of a version. `text` is the chunk of its body or method.
    """

    header: Chunk
    kind: UnitKind
    name: bytes = b""
    pool: bytes = b""
    superclass: bytes = b""
    indexed: bytes = b"none"
    names: Names = Names()
    annotations: list[tuple[bytes, bytes]] = field(default_factory=list)
    text: Chunk | None = None
    last: Chunk | None = None

    @property
    def class_side(self) -> bool:
        """Whether it is a method of the class side."""
        return self.kind is UnitKind.CLASS_METHOD

    def annotation(self, key: bytes) -> bytes | None:
        """The value of its last annotation of this key."""
        return next((value for name, value in reversed(self.annotations) if name == key), None)

    def parse(self, dialect: Dialect = STX) -> tuple[Method | Body | None, list[Fault]]:
        """The tree of its text, and the faults of that. The offsets are those of `text.text.bytes`."""
        if self.text is None:
            return None, []
        parser = Parser(self.text.text.bytes, dialect)
        return parser.method() if self.kind in METHODS else parser.body(), parser.faults


@dataclass(slots=True)
class Trouble:
    """What is wrong with an element: its number (from 1), the offset in its text, the reason as `stx` names it, and
    the offset in the file."""

    element: int
    at: int
    reason: str
    place: int


@dataclass(slots=True)
class File:
    """The units of a file in order, and what is wrong with its headers."""

    units: list[Unit]
    troubles: list[Trouble]

    def methods(self) -> list[Unit]:
        """Its methods, of both sides."""
        return [unit for unit in self.units if unit.kind in METHODS]

    def classes(self) -> dict[bytes, Unit]:
        """Its classes by name. Of two of one name the first counts."""
        found: dict[bytes, Unit] = {}
        for unit in self.units:
            if unit.kind is UnitKind.CLASS:
                found.setdefault(unit.name, unit)
        return found


_NAME = re.compile(rb"[A-Za-z_][A-Za-z0-9_]*\Z")
_GAPS = re.compile(rb"[\t\n\f\r ]+")


def is_name(text: bytes) -> bool:
    """Whether it is an identifier that isn't reserved."""
    return _NAME.match(text) is not None and text not in RESERVED


def read(data: bytes, lenient: bool = False) -> File:
    """The units of an interchange file. A lenient reading takes names with white space around them, and `#'none'`."""
    file = File([], [])
    pending: Unit | None = None
    chunk = None
    for chunk in chunks(data):
        if not chunk.ended and not chunk.blank:
            _note(file, chunk, len(chunk.text.bytes), "Unfinished")
        if chunk.blank:
            continue
        if pending is not None:
            pending.text = pending.last = chunk
            pending = None
            continue
        unit = _element(file, chunk, lenient)
        pending = unit if unit and unit.kind in WITH_TEXT else None
    if pending is not None:
        _note(file, chunk, 0, "MissingText")
    if not file.units or file.units[0].kind is not UnitKind.VERSION:
        file.troubles.insert(0, Trouble(1, 0, "MissingVersion", 0))
    return file


def _note(file: File, chunk: Chunk, at: int, reason: str) -> None:
    file.troubles.append(Trouble(chunk.number, at, reason, chunk.text.place(at)))


def _element(file: File, chunk: Chunk, lenient: bool) -> Unit | None:
    """Reads a header, comment or annotation into the file; the unit where it begins one."""
    match said(chunk.text.bytes, lenient):
        case Heading(kind=UnitKind.VERSION, second=at) if file.units:
            _note(file, chunk, at, "Syntax")
        case Heading(kind, name, pool, superclass, indexed, names):
            unit = Unit(chunk, kind, name, pool, superclass, indexed, names, last=chunk)
            file.units.append(unit)
            return unit
        case Annotation(key, value) if file.units:
            file.units[-1].annotations.append((key, value))
            file.units[-1].last = chunk
        case Annotation():
            _note(file, chunk, 0, "Syntax")
        case Wrong(at, reason):
            _note(file, chunk, at, reason)
    return None


class Heading(NamedTuple):
    """What a header declares, wherever it stands, in the words of Unit, and the offset of its second token."""

    kind: UnitKind
    name: bytes = b""
    pool: bytes = b""
    superclass: bytes = b""
    indexed: bytes = b"none"
    names: Names = Names()
    second: int = 0


class Annotation(NamedTuple):
    """What an annotation says of the unit before it."""

    key: bytes
    value: bytes


class Wrong(NamedTuple):
    """The offset of a token that can't stand, and the reason as `stx` names it."""

    at: int
    reason: str


@lru_cache(maxsize=65536)
def said(text: bytes, lenient: bool) -> Heading | Annotation | Wrong:
    """What the text of a header, annotation or comment says. Texts are kept, since a file is read at each change of it."""
    header = _Header(text, lenient)
    try:
        return header.annotation() if header.at_annotation() else header.heading()
    except _Stopped as stopped:
        return Wrong(*stopped.args)


class _Stopped(Exception):
    """A token of a header can't stand: its offset, and the reason."""


class _Header:
    """Reads the tokens of one header."""

    def __init__(self, text: bytes, lenient: bool) -> None:
        self.lenient = lenient
        self.tokens = tokens_of(text).tokens
        self.tokens.append(Token(Kind.END, len(text), len(text), b""))
        self.index = 0

    def peek(self) -> Token:
        return self.tokens[self.index]

    def fail(self) -> None:
        token = self.peek()
        raise _Stopped(token.start, str(token.value) if token.kind is Kind.FAULT else "Syntax")

    def take(self, kind: Kind) -> Token:
        token = self.peek()
        if token.kind is not kind:
            self.fail()
        self.index += 1
        return token

    def word(self, text: bytes) -> None:
        if self.peek().text != text:
            self.fail()
        self.take(Kind.KEYWORD)

    def name(self) -> bytes:
        token = self.peek()
        if token.kind is not Kind.STRING or not is_name(self.trimmed(token.value)):
            self.fail()
        return self.trimmed(self.take(Kind.STRING).value)

    def trimmed(self, text: bytes) -> bytes:
        return text.strip(WHITE) if self.lenient else text

    def names(self) -> tuple[bytes, ...]:
        token = self.peek()
        if token.kind is not Kind.STRING:
            self.fail()
        text = self.trimmed(token.value)
        names = tuple(_GAPS.split(text)) if text.strip(WHITE) else ()
        if not all(map(is_name, names)) or (text and not names):
            self.fail()
        self.take(Kind.STRING)
        return names

    def at_annotation(self) -> bool:
        return [token.text for token in self.tokens[:2]] == [b"Annotation", b"key:"]

    def annotation(self) -> Annotation:
        self.index = 2
        key = self.take(Kind.STRING).value
        self.word(b"value:")
        value = self.take(Kind.STRING).value
        self.take(Kind.END)
        return Annotation(key, value)

    def heading(self) -> Heading:
        """What the whole header declares."""
        if self.peek().kind is Kind.END:
            return Heading(UnitKind.COMMENT)
        heading = self.declared(self.take(Kind.IDENTIFIER).text)
        self.take(Kind.END)
        return heading

    def declared(self, first: bytes) -> Heading:
        """What is declared, behind the first word."""
        second = self.peek()
        words = {b"initializer": UnitKind.INITIALIZER, b"method": UnitKind.METHOD,
                 b"classMethod": UnitKind.CLASS_METHOD}
        if second.kind is Kind.IDENTIFIER and second.text in words:
            self.index += 1
            kind = words[second.text]
            if kind is UnitKind.INITIALIZER and first == b"Global":
                return Heading(UnitKind.PROGRAM_INITIALIZER)
            return Heading(kind, first)
        if second.kind is not Kind.KEYWORD:
            self.fail()
        self.index += 1
        return self.keyed(first, second.text)

    def keyed(self, first: bytes, word: bytes) -> Heading:
        """What is declared, behind the first word and a keyword."""
        variables = {b"variable:": (UnitKind.GLOBAL_VARIABLE, UnitKind.POOL_VARIABLE),
                     b"constant:": (UnitKind.GLOBAL_CONSTANT, UnitKind.POOL_CONSTANT)}
        if word in variables:
            of_global, of_pool = variables[word]
            if first == b"Global":
                return Heading(of_global, self.name())
            return Heading(of_pool, self.name(), first)
        if word == b"initializerFor:":
            return Heading(UnitKind.POOL_INITIALIZER, self.name(), first)
        if (first, word) == (b"Smalltalk", b"interchangeVersion:"):
            return Heading(UnitKind.VERSION, self.take(Kind.STRING).value, second=self.tokens[1].start)
        if (first, word) == (b"Pool", b"named:"):
            return Heading(UnitKind.POOL, self.name())
        if (first, word) == (b"Class", b"named:"):
            return self.class_heading()
        self.index -= 1
        self.fail()

    def class_heading(self) -> Heading:
        name = self.name()
        self.word(b"superclass:")
        superclass = self.name()
        self.word(b"indexedInstanceVariables:")
        kinds = (Kind.SYMBOL, Kind.QUOTED_SYMBOL) if self.lenient else (Kind.SYMBOL,)
        if self.peek().kind not in kinds or self.peek().value not in (b"none", b"object", b"byte"):
            self.fail()
        indexed = self.take(self.peek().kind).value
        self.word(b"instanceVariableNames:")
        instance = self.names()
        self.word(b"classVariableNames:")
        class_variables = self.names()
        self.word(b"sharedPools:")
        pools = self.names()
        self.word(b"classInstanceVariableNames:")
        names = Names(instance, class_variables, pools, self.names())
        return Heading(UnitKind.CLASS, name, superclass=superclass, indexed=indexed, names=names)
