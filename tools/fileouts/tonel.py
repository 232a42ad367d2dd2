"""Tonel files: a class or an extension with its methods."""
from __future__ import annotations

from interchange.places import WHITE
from interchange.tokens import Dialect, Kind, tokens_of

from .definitions import is_good_name
from .methods import bracketed_method
from .program import ClassItem, MethodItem, Program
from .sources import Origin, Source, shown
from .ston import Entry, Ston

_TYPES = {b"normal": b"none", b"variable": b"object", b"bytes": b"byte"}
_LISTS = {b"instVars": "instance", b"classVars": "class_variables", b"pools": "pools",
          b"classInstVars": "class_instance"}


def read(program: Program, source: Source) -> None:
    """Reads a file."""
    source.is_package = True
    Reader(program, source).read()


class Reader:
    """Goes over the tokens of one file."""

    def __init__(self, program: Program, source: Source) -> None:
        self.program = program
        self.source = source
        self.origin = Origin(source, source.whole())
        found = tokens_of(self.origin.bytes, Dialect(foreign=True))
        self.tokens = found.tokens
        self.comments = found.comments
        self.index = 0

    def _refuse(self, offset: int, text: str) -> None:
        self.program.report.refuse(self.origin.spot(offset), text)

    def read(self) -> None:
        word = self.tokens[0].text
        self.index = 1
        says = self._metadata()
        if says is None:
            return
        if word == b"Trait":
            self._refuse(self.tokens[0].start, "traits aren't here")
        elif word != b"Package":
            name = self._class(word, says)
            if name:
                self._methods()

    def _metadata(self) -> dict[bytes, Entry] | None:
        """What stands between the braces that begin here."""
        opening = self.tokens[self.index]
        ston = Ston(self.origin.bytes, opening.start)
        says = ston.braces()
        if says is None:
            self._refuse(ston.at, "this can't stand between the braces")
            return None
        self.index = next((index for index, token in enumerate(self.tokens) if token.start >= ston.at),
                          len(self.tokens))
        return says

    def _class(self, word: bytes, says: dict[bytes, Entry]) -> bytes | None:
        """Reads what the file says of its class; the class's name."""
        name = self._text(says, b"name")
        if not name:
            self._refuse(self.tokens[0].start, "the name is missing")
            return None
        if word == b"Extension":
            return name
        item = ClassItem(name, self._text(says, b"superclass") or b"nil", self.origin.spot(says[b"name"].start))
        kind = self._text(says, b"type") or b"normal"
        if kind not in _TYPES:
            self._refuse(says[b"type"].start, "%s is a kind of class that isn't here" % shown(kind))
        item.indexed = _TYPES.get(kind, b"none")
        for key, which in _LISTS.items():
            self._list(item, which, says.get(key))
        for key in (b"traits", b"classTraits"):
            if key in says and says[key].value not in (b"", b"{}", [], None):
                self._refuse(says[key].start, "traits aren't here")
        self._annotate(item, says)
        self.program.add(item)
        return name

    def _annotate(self, item: ClassItem, says: dict[bytes, Entry]) -> None:
        category = self._text(says, b"category") or self._text(says, b"package")
        tag = self._text(says, b"tag")
        if category and tag and not self._text(says, b"category").endswith(tag):
            category = category + b"-" + tag
        item.annotate(b"category", category)
        if self.comments and self.comments[0][0] < self.tokens[0].start:
            start, end = self.comments[0]
            text = self.origin.bytes[start + 1 : self.tokens[0].start].strip(WHITE)
            item.annotate(b"comment", text.removesuffix(b'"').strip(WHITE).replace(b'""', b'"'))

    def _text(self, says: dict[bytes, Entry], key: bytes) -> bytes:
        entry = says.get(key)
        return entry.value if entry and isinstance(entry.value, bytes) else b""

    def _list(self, item: ClassItem, which: str, entry: Entry | None) -> None:
        """Takes a list of names."""
        if entry is None or not isinstance(entry.value, list):
            return
        names = [(inner.value if isinstance(inner.value, bytes) else b"?", self.origin.spot(inner.start))
                 for inner in entry.value]
        setattr(item, which, [name for name, spot in names if is_good_name(self.program.report, name, spot)])

    def _methods(self) -> None:
        """The methods behind the braces, each with braces of its own before it."""
        while self.index < len(self.tokens):
            category = b""
            if self.tokens[self.index].kind is Kind.BRACE_OPEN:
                says = self._metadata()
                if says is None:
                    return
                category = self._text(says, b"category")
            if self.index < len(self.tokens) and not self._method(category):
                return

    def _method(self, category: bytes) -> bool:
        """A method; whether reading can go on behind it."""
        found = bracketed_method(self.tokens, self.index)
        if found is None:
            self._refuse(self.tokens[self.index].start, "this begins no method")
            return False
        item = MethodItem(found.class_name, found.class_side, found.origin(self.origin))
        if category:
            item.annotations.append((b"category", category))
        self.program.add(item)
        self.index = found.next
        return True
