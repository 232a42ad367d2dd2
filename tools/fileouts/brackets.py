"""GNU Smalltalk's brackets, and scripts: classes in brackets among statements."""
from __future__ import annotations

from interchange.bodies import Parser
from interchange.tokens import Dialect, Kind, Token, tokens_of

from .definitions import SHAPES, is_good_name
from .methods import bracketed_method, closing_bracket
from .program import ClassItem, MethodItem, Program
from .sources import Origin, Source, Spot, shown
from .statements import take_statements

_OPENINGS = frozenset((Kind.BLOCK_OPEN, Kind.BYTES_OPEN, Kind.PAREN_OPEN, Kind.ARRAY_OPEN, Kind.BRACE_OPEN,
                       Kind.BINDING_OPEN, Kind.COMPILED_OPEN))
_CLOSINGS = frozenset((Kind.BLOCK_CLOSE, Kind.PAREN_CLOSE, Kind.BRACE_CLOSE))


def read(program: Program, source: Source) -> None:
    """Reads a file of declarations in brackets and statements."""
    Reader(program, source).read()


class Reader:
    """Goes over the tokens of one file."""

    def __init__(self, program: Program, source: Source) -> None:
        self.program = program
        self.source = source
        self.origin = Origin(source, source.whole())
        dialect = source.tool.dialect
        found = tokens_of(self.origin.bytes, Dialect(True, dialect.underscore_assigns, dialect.dotted_names,
                                                     dialect.digit_groups, bang_ends=True))
        self.tokens = found.tokens
        self.comments = found.comments
        self.index = 0

    def _refuse(self, offset: int, text: str) -> None:
        self.program.report.refuse(self.origin.spot(offset), text)

    def _words(self, index: int, count: int) -> list[bytes]:
        return [token.text for token in self.tokens[index : index + count]]

    def _kind(self, index: int) -> Kind:
        return self.tokens[index].kind if index < len(self.tokens) else Kind.END

    # the top of the file

    def read(self) -> None:
        self._first_comment()
        begin = 0
        while self.index < len(self.tokens):
            start = self.index
            if self._declaration():
                self._statements(begin, start)
                begin = self.index
            elif self._kind(start) is Kind.BANG:
                self._statements(begin, start)
                begin = self.index = start + 1
            else:
                self._skip_statement()
        self._statements(begin, len(self.tokens))

    def _first_comment(self) -> None:
        if self.comments and (not self.tokens or self.comments[0][0] < self.tokens[0].start):
            start, end = self.comments[0]
            self.program.comment(self.source, self.origin.bytes[start + 1 : end - 1], self.origin.spot(start))

    def _skip_statement(self) -> None:
        """Goes behind the period of a statement, or before the bang or declaration behind it."""
        depth = 0
        while self.index < len(self.tokens):
            kind = self._kind(self.index)
            if depth == 0 and kind is Kind.BANG:
                return
            self.index += 1
            depth += 1 if kind in _OPENINGS else -1 if kind in _CLOSINGS and depth else 0
            if depth == 0 and kind is Kind.PERIOD:
                return

    def _statements(self, begin: int, end: int) -> None:
        """The statements between two tokens, as one piece of code."""
        if begin == end:
            return
        start = self.tokens[begin].start
        stop = self.tokens[end - 1].end
        take_statements(self.program, self.origin.part(start, stop))

    def _declaration(self) -> bool:
        """Takes a declaration that begins here; whether there was one. What it is behind moves on."""
        index = self.index
        words = self._words(index, 5)
        if self._kind(index) not in (Kind.IDENTIFIER,):
            return False
        if words[0] == b"Eval" and self._kind(index + 1) is Kind.BLOCK_OPEN:
            return self._eval()
        if words[1:2] == [b"subclass:"] and self._kind(index + 3) is Kind.BLOCK_OPEN:
            return self._class()
        if words[1:2] == [b"extend"] and self._kind(index + 2) is Kind.BLOCK_OPEN:
            return self._members(index + 2, self._name(words[0]), False, None)
        if words[1:3] == [b"class", b"extend"] and self._kind(index + 3) is Kind.BLOCK_OPEN:
            return self._members(index + 3, self._name(words[0]), True, None)
        if words[:2] == [b"Namespace", b"current:"] and b"[" in words:
            self._refuse(self.tokens[index].start, "a namespace isn't here")
            self.index = index + words.index(b"[") + 1
            self._to_close(index + words.index(b"["))
            return True
        return self._method(index, b"", False)

    def _to_close(self, opening: int) -> int:
        """Moves behind the bracket that closes one; its index. Without such a bracket that is the end."""
        closing = closing_bracket(self.tokens, opening)
        if closing is None:
            self._refuse(self.tokens[opening].start, "this bracket is never closed")
            closing = len(self.tokens)
        self.index = min(closing + 1, len(self.tokens))
        return closing

    def _name(self, text: bytes) -> bytes:
        return text.rpartition(b".")[2].lstrip(b"#")

    def _eval(self) -> bool:
        opening = self.index + 1
        closing = self._to_close(opening)
        end = self.tokens[closing].start if closing < len(self.tokens) else len(self.origin.bytes)
        take_statements(self.program, self.origin.part(self.tokens[opening].end, end))
        return True

    def _method(self, index: int, owner: bytes, class_side: bool) -> bool:
        """A method in brackets; whether there was one."""
        found = bracketed_method(self.tokens, index, owner)
        if found is None:
            return False
        side = class_side or found.class_side
        self.program.add(MethodItem(found.class_name, side, found.origin(self.origin)))
        self.index = found.next
        return True

    # classes

    def _class(self) -> bool:
        """`A subclass: B [ … ]`. A second one of the same class adds to it."""
        index = self.index
        above, name = (self._name(word) for word in (self._words(index, 1) + self._words(index + 2, 1)))
        spot = self.origin.spot(self.tokens[index + 2].start)
        if not is_good_name(self.program.report, name, spot):
            self._to_close(index + 3)
            return True
        item = next((item for item in self.program.items if isinstance(item, ClassItem) and item.name == name
                     and item.superclass == above), None)
        if item is None:
            item = ClassItem(name, above, spot)
            self.program.add(item)
        return self._members(index + 3, name, False, item)

    def _members(self, opening: int, name: bytes, class_side: bool, item: ClassItem | None) -> bool:
        """What stands in the brackets of a class or an extension."""
        closing = self._to_close(opening)
        behind = self.index
        self.index = opening + 1
        while self.index < closing:
            if not self._member(name, class_side, item, closing):
                self._refuse(self.tokens[self.index].start, "this begins nothing of a class")
                break
        self.index = behind
        return True

    def _member(self, name: bytes, class_side: bool, item: ClassItem | None, closing: int) -> bool:
        """One member; whether there was one."""
        index = self.index
        words = self._words(index, 4)
        if words[0] == b"|":
            return self._variables(name, class_side, closing)
        if words[0] == b"||":
            self.index += 1
            return True
        if words[0] == b"<" and self._kind(index + 1) is Kind.KEYWORD:
            return self._attribute(name, closing)
        if self._kind(index) is Kind.IDENTIFIER and self._kind(index + 1) is Kind.ASSIGN:
            return self._class_variable(name, closing, item)
        if self._kind(index) is Kind.IDENTIFIER and self._kind(index + 1) is Kind.PERIOD:
            self._declare(name, words[0], index)
            self.index += 2
            return True
        if words[1:2] == [b"class"] and self._kind(index + 2) is Kind.BLOCK_OPEN:
            return self._members(index + 2, name, True, item)
        return self._method(index, name, class_side)

    def _variables(self, name: bytes, class_side: bool, closing: int) -> bool:
        """`| a b |`: further variables of the instances, or of the class."""
        index = self.index + 1
        which = "class_instance" if class_side else "instance"
        while index < closing and self._kind(index) is Kind.IDENTIFIER:
            token = self.tokens[index]
            spot = self.origin.spot(token.start)
            if is_good_name(self.program.report, token.text, spot):
                self._add(name, which, token.text, spot)
            index += 1
        if self._words(index, 1) != [b"|"]:
            return False
        self.index = index + 1
        return True

    def _add(self, name: bytes, which: str, variable: bytes, spot: Spot) -> None:
        def add(item: ClassItem) -> None:
            if variable not in getattr(item, which):
                getattr(item, which).append(variable)
        self.program.remark(name, spot, add, True)

    def _attribute(self, name: bytes, closing: int) -> bool:
        """`<comment: 'x'>` and the like."""
        index = self.index
        end = next((at for at in range(index + 1, closing) if self.tokens[at].text == b">"), None)
        if end is None:
            return False
        key = self.tokens[index + 1]
        parser = Parser(self.origin.bytes[key.end : self.tokens[end].start], self.source.tool.dialect)
        literals = parser.literals()
        value = literals[0].value if literals and isinstance(literals[0].value, bytes) else b""
        self._attribute_says(name, key, value)
        self.index = end + 1
        return True

    def _attribute_says(self, name: bytes, key: Token, value: bytes) -> None:
        spot = self.origin.spot(key.start)
        if key.text in (b"comment:", b"category:"):
            word = key.text[:-1]
            self.program.remark(name, spot, lambda item: item.annotate(word, value))
        elif key.text == b"shape:" and b"#" + value in SHAPES:
            self.program.remark(name, spot, lambda item: setattr(item, "indexed", SHAPES[b"#" + value]))
        elif key.text == b"shape:":
            self._refuse(key.start, "%s is a kind of class that isn't here" % shown(value))
        elif key.text == b"import:":
            self._refuse(key.start, "an import isn't here")
        else:
            self.program.report.warn(spot, "<%s> is dropped" % shown(key.text), "pragma", key.text)

    def _declare(self, name: bytes, variable: bytes, index: int) -> None:
        spot = self.origin.spot(self.tokens[index].start)
        if is_good_name(self.program.report, variable, spot):
            self._add(name, "class_variables", variable, spot)

    def _class_variable(self, name: bytes, closing: int, item: ClassItem | None) -> bool:
        """`X := expression.`: a class variable, and a part of the class's initializer."""
        start = self.index
        self._declare(name, self.tokens[start].text, start)
        self.index = start + 2
        depth = 0
        while self.index < closing:
            kind = self._kind(self.index)
            if depth == 0 and kind is Kind.PERIOD:
                break
            depth += 1 if kind in _OPENINGS else -1 if kind in _CLOSINGS and depth else 0
            self.index += 1
        begin, end = self.tokens[start + 1].end, self.tokens[self.index - 1].end
        code = Origin(self.source, self.origin.text.part(begin, max(begin, end)).trimmed())
        self.index += 1 if self.index < closing else 0
        if code.bytes.strip() not in (b"", b"nil"):
            self.program.initialize_class(name, self.tokens[start].text, code)
        return True
