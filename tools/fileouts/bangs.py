"""Files of chunks: Pharo, Squeak, Cuis, VisualWorks, Dolphin, and GNU Smalltalk's older syntax."""
from __future__ import annotations

import re
from collections.abc import Iterator
from dataclasses import dataclass

from interchange.bodies import Literal, Parser
from interchange.chunks import chunks
from interchange.places import WHITE, Text
from interchange.tokens import Dialect, Kind, tokens_of

from .program import MethodItem, Program
from .sources import Origin, Source
from .statements import take_statements

_METHODS = re.compile(rb"\s*([\w.]+)(\s+class)?\s+(?:methodsFor|publicMethodsFor|privateMethodsFor)\b:?")
_CATEGORIES = re.compile(rb"\s*([\w.]+)(\s+class)?\s+categoriesFor:\s*#([^\s!]+)")
_SKIPPED_RECORD = re.compile(rb"\s*[\w.]+(\s+class)?\s+(categoriesForClass|reorganize|categoriesForMethods)\b")
_COMMENT = re.compile(rb"\s*([\w.]+)(\s+class)?\s+commentStamp:")
_HEADER = re.compile(rb"\s*(classDefinition:|provides:|requires:|methodRemoval:|classRemoval:|----)")
_METHOD_REMOVAL = re.compile(rb"\s*methodRemoval:\s*([\w.]+)(\s+class)?\s+#(\S+)")


@dataclass(frozen=True)
class Piece:
    """A chunk, and whether nothing but white space stands between the bang before it and the one before that."""

    origin: Origin
    behind_bang: bool

    @property
    def blank(self) -> bool:
        return not self.origin.bytes.strip(WHITE)


def read(program: Program, source: Source) -> None:
    """Reads all chunks of a file."""
    Reader(program, source).read()


def texts(source: Source) -> Iterator[Text]:
    """The file's chunks by the rule of its tool. Where none is known, and the first leaves a string open, by GNU's."""
    if source.tool.bangs_in_strings:
        return by_tokens(source)
    plain = [chunk.text for chunk in chunks(source.data)]
    if source.tool.name == "unknown" and any(is_open(text.bytes) for text in plain):
        return by_tokens(source)
    return iter(plain)


def is_open(text: bytes) -> bool:
    """Whether a string or a comment of a text doesn't end."""
    tokens = tokens_of(text, Dialect(foreign=True)).tokens
    return bool(tokens) and tokens[-1].value in ("OpenString", "OpenComment")


def by_tokens(source: Source) -> Iterator[Text]:
    """Chunks by GNU Smalltalk's rule: a bang within a string, a comment or behind `$` ends nothing."""
    whole = source.whole()
    start = 0
    for token in tokens_of(whole.bytes, Dialect(foreign=True, bang_ends=True)).tokens:
        if token.kind is Kind.BANG:
            yield whole.part(start, token.start)
            start = token.end
    yield whole.part(start, len(whole.bytes))


class Reader:
    """Goes over the chunks of one file."""

    def __init__(self, program: Program, source: Source) -> None:
        self.program = program
        self.source = source
        self.pieces = self._pieces()
        self.index = 0
        self.categories: dict[tuple[bytes, bool, bytes], list[bytes]] = {}

    def _pieces(self) -> list[Piece]:
        pieces: list[Piece] = []
        for text in texts(self.source):
            pieces.append(Piece(Origin(self.source, text), bool(pieces) and pieces[-1].blank))
        return pieces

    def read(self) -> None:
        first = len(self.program.items)
        while self.index < len(self.pieces):
            piece = self.pieces[self.index]
            self.index += 1
            if not piece.blank:
                self._piece(piece)
        for item in self.program.items[first:]:
            if isinstance(item, MethodItem):
                self._categorize(item)

    def _piece(self, piece: Piece) -> None:
        """Reads a chunk, and those that belong to it."""
        text = piece.origin.bytes
        found = _METHODS.match(text)
        if found and self._is_all_header(piece, found.end()):
            self._methods(piece, found)
        elif _CATEGORIES.match(text):
            self._dolphin_categories(_CATEGORIES.match(text))
        elif _SKIPPED_RECORD.match(text):
            self._record()
        elif _COMMENT.match(text):
            self._class_comment(_COMMENT.match(text))
        elif _HEADER.match(text):
            self._removal(piece)
        else:
            self._statements(piece)

    def _is_all_header(self, piece: Piece, end: int) -> bool:
        """Whether only literals and keywords stand behind `methodsFor:`; else it is a statement like others."""
        tokens = tokens_of(piece.origin.bytes[end:], Dialect(foreign=True)).tokens
        return all(token.kind in (Kind.STRING, Kind.KEYWORD, Kind.INTEGER, Kind.SYMBOL, Kind.IDENTIFIER)
                   for token in tokens)

    def _record(self) -> list[Piece]:
        """The chunks up to a blank one, which is taken as well."""
        found = []
        while self.index < len(self.pieces):
            piece = self.pieces[self.index]
            self.index += 1
            if piece.blank:
                break
            found.append(piece)
        return found

    def _methods(self, piece: Piece, found: re.Match[bytes]) -> None:
        class_name = found[1].rpartition(b".")[2]
        category = self._category(piece, found.end())
        for method in self._record():
            item = MethodItem(class_name, bool(found[2]), method.origin)
            if category:
                item.annotations.append((b"category", category))
            self.program.add(item)

    def _category(self, piece: Piece, end: int) -> bytes:
        """The string or symbol behind `methodsFor:`."""
        for literal in Parser(piece.origin.bytes[end:], Dialect(foreign=True)).literals():
            return literal.value if isinstance(literal.value, bytes) and is_text(literal) else b""
        return b""

    def _dolphin_categories(self, found: re.Match[bytes]) -> None:
        """`!A categoriesFor: #x!c!public! !`: the categories of a method that stands elsewhere in the file."""
        names = [piece.origin.bytes.strip(WHITE) for piece in self._record()]
        key = (found[1].rpartition(b".")[2], bool(found[2]), found[3])
        self.categories[key] = [name for name in names if name not in (b"public", b"private")] or names

    def _categorize(self, item: MethodItem) -> None:
        """Gives a method of Dolphin the first of its categories."""
        if not self.categories:
            return
        selector = Parser(item.origin.bytes, self.source.tool.dialect).method().selector
        names = self.categories.get((item.class_name, item.class_side, selector))
        if names and not item.annotations:
            item.annotations.append((b"category", names[0]))

    def _class_comment(self, found: re.Match[bytes]) -> None:
        """`!A commentStamp: '…' prior: 0!` and the text behind it."""
        if self.index == len(self.pieces) or found[2]:
            return
        piece = self.pieces[self.index]
        self.index += 1
        text = piece.origin.bytes.strip(WHITE)
        name = found[1].rpartition(b".")[2]
        self.program.remark(name, piece.origin.spot(), lambda item: item.annotate(b"comment", text))

    def _removal(self, piece: Piece) -> None:
        found = _METHOD_REMOVAL.match(piece.origin.bytes)
        if found:
            self.program.removals.append((found[1], bool(found[2]), found[3], piece.origin.spot()))

    def _statements(self, piece: Piece) -> None:
        """A chunk of statements. One that is a string or comments alone says what the file is."""
        parser = Parser(piece.origin.bytes, self.source.tool.dialect)
        body = parser.body()
        remark = self._said(body.statements, parser)
        if remark is not None:
            self.program.comment(self.source, remark, piece.origin.spot())
        else:
            take_statements(self.program, piece.origin)

    def _said(self, statements: list, parser: Parser) -> bytes | None:
        """The text of a chunk that is a string or comments alone."""
        if parser.faults:
            return None
        if not statements:
            return b"\n".join(parser.text[start + 1 : end - 1] for start, end in parser.comments)
        primary = statements[0].expression.operand.primary
        alone = len(statements) == 1 and not statements[0].expression.messages and not statements[0].expression.targets
        if alone and isinstance(primary, Literal) and primary.kind == "string":
            return primary.value
        return None


def is_text(literal: Literal) -> bool:
    """Whether it is a string or a symbol."""
    return literal.kind in ("string", "symbol")
