"""Tokens as the tree of a method or of a body, after the grammar of docs/language.md.

A `Parser` reads a whole text and never fails: it notes each Fault and goes on with the next statement. In a text of
`stx` the first of its faults is the one that `stx` names. In a foreign text the tree also has braces, byte arrays,
floats, pragmas and the like, for a converter to take or to refuse.

Trees are nested by brackets alone (messages, cascades and targets are lists), and no deeper than DEEPEST. Whatever
walks one recursively takes at most some ten frames of Python for each bracket.
"""
from __future__ import annotations

import sys
from collections.abc import Callable, Iterator
from dataclasses import dataclass, field

from .tokens import STX, TOO_LARGE, Dialect, Kind, Token, tokens_of

DEEPEST = 200
"""How many brackets may be open at once. One more is the fault TooDeep."""

sys.setrecursionlimit(max(sys.getrecursionlimit(), 20 * DEEPEST + 1000))

RESERVED = frozenset((b"nil", b"true", b"false", b"self", b"super"))
CONSTANTS = frozenset((b"nil", b"true", b"false"))


@dataclass(slots=True)
class Fault:
    """What can't stand: the offset in the text, and the reason as `stx` names it. In a foreign text a second message
    behind one semicolon is the reason Cascade."""

    at: int
    reason: str


@dataclass(slots=True)
class Name:
    """A name where it is declared or assigned."""

    text: bytes
    start: int
    end: int


@dataclass(slots=True)
class Literal:
    """A literal. `kind` is nil, true, false, integer, character, string, symbol or array; in a foreign text also
    float, scaled, bytes, binding or compiled. `value` is that of the token, or the list of an array's literals."""

    kind: str
    value: object
    start: int
    end: int


@dataclass(slots=True)
class Variable:
    """A name as a value; also self, super and, in a foreign text, thisContext."""

    text: bytes
    start: int
    end: int


@dataclass(slots=True)
class Message:
    """A message without its receiver. `parts` are the tokens of its selector."""

    selector: bytes
    parts: list[Token]
    arguments: list[Operand]
    start: int
    end: int


@dataclass(slots=True)
class Operand:
    """A primary and the messages that are sent to it in turn."""

    primary: Primary
    messages: list[Message]
    start: int
    end: int


@dataclass(slots=True)
class Expression:
    """Targets from the left, an operand, and what stands behind semicolons."""

    targets: list[Name]
    operand: Operand
    cascade: list[Message]
    start: int
    end: int

    @property
    def messages(self) -> list[Message]:
        """All messages of the outermost level, in order."""
        return self.operand.messages + self.cascade


@dataclass(slots=True)
class Statement:
    """An expression that is a statement. `caret` is where its `^` stands, or None."""

    expression: Expression
    caret: int | None
    start: int
    end: int


@dataclass(slots=True)
class Temporaries:
    """A declaration between bars. `leading` is whether it stands where a body begins."""

    names: list[Name]
    start: int
    end: int
    leading: bool


@dataclass(slots=True)
class Pragma:
    """`<primitive: 60>`: its selector, its literals, and where it stands with its angle brackets."""

    selector: bytes
    arguments: list[Literal]
    start: int
    end: int


@dataclass
class Body:
    """Temporaries and statements. `periods` are those of empty statements, which only foreign texts have."""

    declarations: list[Temporaries] = field(default_factory=list)
    statements: list[Statement] = field(default_factory=list)
    pragmas: list[Pragma] = field(default_factory=list)
    periods: list[int] = field(default_factory=list)
    start: int = 0
    end: int = 0

    @property
    def temporaries(self) -> list[Name]:
        """All names that it declares."""
        return [name for declaration in self.declarations for name in declaration.names]


@dataclass(slots=True)
class Paren:
    """An expression in parentheses."""

    expression: Expression
    start: int
    end: int


@dataclass(slots=True)
class Block:
    """A block, from its opening to behind its closing bracket."""

    parameters: list[Name]
    body: Body
    start: int
    end: int


@dataclass(slots=True)
class Brace:
    """`{a. b}` of a foreign text."""

    elements: list[Expression]
    start: int
    end: int


Primary = Literal | Variable | Paren | Block | Brace


@dataclass(slots=True)
class Method:
    """A method: its pattern's selector and parameters, and its body. The pattern ends before `pattern_end`."""

    selector: bytes
    parameters: list[Name]
    body: Body
    pattern_end: int


class _Stopped(Exception):
    """The statement can't go on."""


_OPENINGS = frozenset((Kind.PAREN_OPEN, Kind.BLOCK_OPEN, Kind.ARRAY_OPEN, Kind.BRACE_OPEN, Kind.BYTES_OPEN,
                       Kind.BINDING_OPEN, Kind.COMPILED_OPEN))
_CLOSINGS = frozenset((Kind.PAREN_CLOSE, Kind.BLOCK_CLOSE, Kind.BRACE_CLOSE))
_SIMPLE = {Kind.CHARACTER: "character", Kind.STRING: "string", Kind.SYMBOL: "symbol", Kind.QUOTED_SYMBOL: "symbol",
           Kind.FLOAT: "float", Kind.SCALED: "scaled"}


class Parser:
    """Reads one text. Use one parser for one call of `method`, `body` or `literals`, and then look at `faults`."""

    def __init__(self, text: bytes, dialect: Dialect = STX) -> None:
        self.text = text
        self.dialect = dialect
        lexed = tokens_of(text, dialect)
        self.tokens = lexed.tokens
        self.comments = lexed.comments
        self.tokens.append(Token(Kind.END, len(text), len(text), b""))
        self.faults: list[Fault] = []
        self.index = 0
        self.open = 0

    # what is read

    def method(self) -> Method:
        """The method that the whole text is. Without a pattern its selector is empty."""
        selector, parameters = b"", []
        try:
            selector, parameters = self._pattern()
        except _Stopped:
            self._skip(inside=False)
        pattern_end = self.tokens[self.index - 1].end if self.index else 0
        return Method(selector, parameters, self.body(), pattern_end)

    def body(self) -> Body:
        """The body that the whole text is, or that its rest behind a pattern is."""
        body = self._body(inside=False)
        if self._kind() is not Kind.END:
            self._note(self._peek())
        return body

    def literals(self) -> list[Literal]:
        """The literals that the whole text is a list of, as far as it goes."""
        found = []
        try:
            while self._kind() is not Kind.END:
                found.append(self._item())
        except _Stopped:
            pass
        return found

    # moves

    def _peek(self, ahead: int = 0) -> Token:
        return self.tokens[min(self.index + ahead, len(self.tokens) - 1)]

    def _kind(self) -> Kind:
        return self.tokens[self.index].kind

    def _take(self) -> Token:
        token = self.tokens[self.index]
        if token.kind is not Kind.END:
            self.index += 1
        return token

    def _at_operator(self, text: bytes) -> bool:
        token = self._peek()
        return token.kind is Kind.OPERATOR and token.text == text

    def _at_name(self) -> bool:
        token = self._peek()
        return token.kind is Kind.IDENTIFIER and token.text not in RESERVED

    def _note(self, token: Token, reason: str = "Syntax") -> None:
        reason = str(token.value) if token.kind is Kind.FAULT else reason
        if not self.faults or self.faults[-1].at != token.start:
            self.faults.append(Fault(token.start, reason))

    def _stop(self, reason: str = "Syntax") -> None:
        self._note(self._peek(), reason)
        raise _Stopped

    def _expect(self, kind: Kind) -> Token:
        if self._kind() is not kind:
            self._stop()
        return self._take()

    def _open(self) -> Token:
        if self.open == DEEPEST:
            self._stop("TooDeep")
        self.open += 1
        return self._take()

    def _close(self, kind: Kind) -> Token:
        token = self._expect(kind)
        self.open -= 1
        return token

    def _skip(self, inside: bool) -> None:
        """Goes to the end of the statement: behind its period, or before the bracket that ends the block."""
        depth = 0
        while self._kind() is not Kind.END:
            kind = self._kind()
            if depth == 0 and inside and kind is Kind.BLOCK_CLOSE:
                return
            depth += 1 if kind in _OPENINGS else -1 if kind in _CLOSINGS and depth else 0
            self._take()
            if depth == 0 and kind is Kind.PERIOD:
                return

    # patterns, bodies and statements

    def _name(self) -> Name:
        if not self._at_name():
            self._stop()
        token = self._take()
        return Name(token.text, token.start, token.end)

    def _pattern(self) -> tuple[bytes, list[Name]]:
        if self._kind() is Kind.IDENTIFIER:
            return self._take().text, []
        if self._kind() is Kind.OPERATOR:
            return self._take().text, [self._name()]
        selector, parameters = b"", []
        while self._kind() is Kind.KEYWORD:
            selector += self._take().text
            parameters.append(self._name())
        if not parameters:
            self._stop()
        return selector, parameters

    def _body(self, inside: bool, declared: Temporaries | None = None) -> Body:
        """The body of a block (`inside`), or the rest of the text."""
        body = Body(declarations=[declared] if declared else [], start=self._peek().start)
        open_now = self.open
        begins = not declared
        while True:
            try:
                if self._between(body, begins) or self._ends(inside) or not self._statement(body, inside):
                    break
            except _Stopped:
                self.open = open_now
                self._skip(inside)
            begins = False
        body.end = self._peek().start
        return body

    def _ends(self, inside: bool) -> bool:
        return self._kind() is Kind.END or (inside and self._kind() is Kind.BLOCK_CLOSE)

    def _between(self, body: Body, begins: bool) -> None:
        """Takes what may stand before a statement: at the beginning temporaries, in a foreign text more than that."""
        if self.dialect.foreign:
            while self._foreign_between(body):
                pass
        elif begins:
            self._temporaries(body)

    def _foreign_between(self, body: Body) -> bool:
        """Takes a period, a declaration or a pragma that stands between statements; whether there was one."""
        if self._kind() is Kind.PERIOD:
            body.periods.append(self._take().start)
        elif self._at_operator(b"|") or self._at_operator(b"||"):
            self._temporaries(body)
        elif self._at_operator(b"<"):
            body.pragmas.append(self._pragma())
        else:
            return False
        return True

    def _temporaries(self, body: Body) -> None:
        leading = not body.statements
        if self._at_operator(b"||"):
            token = self._take()
            body.declarations.append(Temporaries([], token.start, token.end, leading))
        elif self._at_operator(b"|"):
            body.declarations.append(self._behind_bar(self._take().start, leading))

    def _behind_bar(self, start: int, leading: bool = True) -> Temporaries:
        """The names of a declaration, and its closing bar."""
        names = []
        while self._at_name():
            names.append(self._name())
        if not self._at_operator(b"|"):
            self._stop()
        return Temporaries(names, start, self._take().end, leading)

    def _pragma(self) -> Pragma:
        start = self._take().start
        selector, arguments = b"", []
        if self._kind() is Kind.IDENTIFIER:
            selector = self._take().text
        while self._kind() is Kind.KEYWORD:
            selector += self._take().text
            arguments.append(self._item())
        if not selector or not self._at_operator(b">"):
            self._stop()
        return Pragma(selector, arguments, start, self._take().end)

    def _statement(self, body: Body, inside: bool) -> bool:
        """Takes a statement with its period; whether another may follow."""
        start = self._peek().start
        caret = self._take().start if self._kind() is Kind.CARET else None
        expression = self._expression()
        body.statements.append(Statement(expression, caret, start, expression.end))
        has_period = self._kind() is Kind.PERIOD
        if has_period:
            self._take()
        elif not self._ends(inside):
            self._stop("Cascade" if expression.cascade and self._message_follows() else "Syntax")
        if caret is not None and not self.dialect.foreign and not self._ends(inside):
            self._stop()
        return has_period

    def _message_follows(self) -> bool:
        """Whether a foreign text goes on with a message behind those of a cascade, which none of them may have."""
        return self.dialect.foreign and self._kind() in (Kind.IDENTIFIER, Kind.OPERATOR, Kind.KEYWORD)

    # expressions and messages

    def _expression(self) -> Expression:
        start = self._peek().start
        targets = []
        while self._at_name() and self._peek(1).kind is Kind.ASSIGN:
            targets.append(self._name())
            self._take()
        operand = self._operand(self._any_messages)
        cascade = []
        while operand.messages and self._kind() is Kind.SEMICOLON:
            self._take()
            cascade.append(self._message())
        return Expression(targets, operand, cascade, start, cascade[-1].end if cascade else operand.end)

    def _operand(self, messages: Callable[[list[Message]], None]) -> Operand:
        """A primary with those messages that belong to it at its place."""
        primary = self._primary()
        found: list[Message] = []
        messages(found)
        if isinstance(primary, Variable) and primary.text == b"super" and not found:
            self._stop()
        return Operand(primary, found, primary.start, found[-1].end if found else primary.end)

    def _unary_messages(self, found: list[Message]) -> None:
        while self._kind() is Kind.IDENTIFIER:
            token = self._take()
            found.append(Message(token.text, [token], [], token.start, token.end))

    def _binary_messages(self, found: list[Message]) -> None:
        self._unary_messages(found)
        while self._kind() is Kind.OPERATOR:
            found.append(self._binary())

    def _any_messages(self, found: list[Message]) -> None:
        self._binary_messages(found)
        if self._kind() is Kind.KEYWORD:
            found.append(self._keywords())

    def _message(self) -> Message:
        if self._kind() is Kind.IDENTIFIER:
            token = self._take()
            return Message(token.text, [token], [], token.start, token.end)
        if self._kind() is Kind.OPERATOR:
            return self._binary()
        if self._kind() is not Kind.KEYWORD:
            self._stop()
        return self._keywords()

    def _binary(self) -> Message:
        token = self._take()
        argument = self._operand(self._unary_messages)
        return Message(token.text, [token], [argument], token.start, argument.end)

    def _keywords(self) -> Message:
        parts, arguments = [], []
        while self._kind() is Kind.KEYWORD:
            parts.append(self._take())
            arguments.append(self._operand(self._binary_messages))
        selector = b"".join(part.text for part in parts)
        return Message(selector, parts, arguments, parts[0].start, arguments[-1].end)

    # primaries

    def _primary(self) -> Primary:
        token = self._peek()
        if token.kind is Kind.IDENTIFIER:
            self._take()
            if token.text in CONSTANTS:
                return Literal(token.text.decode(), None, token.start, token.end)
            return Variable(token.text, token.start, token.end)
        if token.kind is Kind.PAREN_OPEN:
            self._open()
            expression = self._expression()
            return Paren(expression, token.start, self._close(Kind.PAREN_CLOSE).end)
        if token.kind is Kind.BLOCK_OPEN:
            return self._block()
        if token.kind is Kind.BRACE_OPEN:
            return self._brace()
        return self._literal()

    def _block(self) -> Block:
        start = self._open().start
        parameters = []
        while self._kind() is Kind.COLON:
            self._take()
            parameters.append(self._name())
        declared = self._bar(parameters)
        body = self._body(inside=True, declared=declared)
        return Block(parameters, body, start, self._close(Kind.BLOCK_CLOSE).end)

    def _bar(self, parameters: list[Name]) -> Temporaries | None:
        """What stands behind parameters; the declaration that shares its operator, if there is one."""
        if not parameters:
            return None
        token = self._peek()
        if self._at_operator(b"|"):
            self._take()
            return None
        if self._at_operator(b"||"):
            self._take()
            return self._behind_bar(token.start + 1)
        if self._at_operator(b"|||"):
            self._take()
            return Temporaries([], token.start + 1, token.end, True)
        if self._kind() is not Kind.BLOCK_CLOSE:
            self._stop()
        return None

    def _brace(self) -> Brace:
        start = self._open().start
        elements = []
        while self._kind() is not Kind.BRACE_CLOSE:
            if self._kind() is Kind.PERIOD:
                self._take()
                continue
            elements.append(self._expression())
            if self._kind() not in (Kind.PERIOD, Kind.BRACE_CLOSE):
                self._stop()
        return Brace(elements, start, self._close(Kind.BRACE_CLOSE).end)

    def _literal(self) -> Literal:
        token = self._peek()
        if token.kind in _SIMPLE:
            self._take()
            return Literal(_SIMPLE[token.kind], token.value, token.start, token.end)
        if token.kind is Kind.INTEGER:
            if token.value == TOO_LARGE:
                self._stop("IntegerTooLarge")
            self._take()
            return Literal("integer", token.value, token.start, token.end)
        if self._at_operator(b"-"):
            return self._negative()
        if token.kind is Kind.ARRAY_OPEN:
            return self._array()
        if token.kind is Kind.BYTES_OPEN:
            return self._bytes()
        if token.kind is Kind.BINDING_OPEN:
            return self._opaque("binding", Kind.BRACE_CLOSE)
        if token.kind is Kind.COMPILED_OPEN:
            return self._opaque("compiled", Kind.PAREN_CLOSE)
        self._stop()

    def _negative(self) -> Literal:
        minus = self._take()
        number = self._peek()
        kinds = {Kind.INTEGER: "integer", Kind.FLOAT: "float", Kind.SCALED: "scaled"}
        if number.kind not in kinds or number.start != minus.end:
            self._stop()
        self._take()
        value = None if number.value is None else -number.value
        return Literal(kinds[number.kind], value, minus.start, number.end)

    def _array(self) -> Literal:
        start = self._open().start
        items = []
        while self._kind() is not Kind.PAREN_CLOSE:
            items.append(self._item())
        return Literal("array", items, start, self._close(Kind.PAREN_CLOSE).end)

    def _bytes(self) -> Literal:
        start = self._open().start
        items = []
        while self._kind() is Kind.INTEGER:
            token = self._take()
            items.append(Literal("integer", token.value, token.start, token.end))
        return Literal("bytes", items, start, self._close(Kind.BLOCK_CLOSE).end)

    def _opaque(self, kind: str, closing: Kind) -> Literal:
        """A foreign literal whose inner tokens don't matter."""
        start = self._open().start
        depth = 1
        while depth and self._kind() is not Kind.END:
            depth += 1 if self._kind() in _OPENINGS else -1 if self._kind() in _CLOSINGS else 0
            if depth:
                self._take()
        return Literal(kind, None, start, self._close(closing).end)

    def _item(self) -> Literal:
        """An item of a literal array."""
        token = self._peek()
        if token.kind is Kind.IDENTIFIER:
            self._take()
            if token.text in CONSTANTS:
                return Literal(token.text.decode(), None, token.start, token.end)
            return Literal("symbol", token.text, token.start, token.end)
        if token.kind is Kind.KEYWORD:
            return self._keyword_symbol()
        if token.kind is Kind.OPERATOR:
            behind = self._peek(1)
            if token.text == b"-" and behind.start == token.end and behind.kind in (
                    Kind.INTEGER, Kind.FLOAT, Kind.SCALED):
                return self._negative()
            self._take()
            return Literal("symbol", token.text, token.start, token.end)
        if token.kind is Kind.PAREN_OPEN:
            return self._array()
        if self.dialect.foreign and token.kind is Kind.BLOCK_OPEN:
            return self._bytes()
        if self.dialect.foreign and token.kind is Kind.BRACE_OPEN:
            return self._opaque("binding", Kind.BRACE_CLOSE)
        return self._literal()

    def _keyword_symbol(self) -> Literal:
        """The longest run of keywords without a gap."""
        first = last = self._take()
        while self._kind() is Kind.KEYWORD and self._peek().start == last.end:
            last = self._take()
        return Literal("symbol", self.text[first.start : last.end], first.start, last.end)


def expressions(body: Body) -> Iterator[tuple[Expression, tuple[Block, ...]]]:
    """Each expression of a body, outer ones first, with the blocks around it from the outermost."""
    waiting: list[tuple[object, tuple[Block, ...]]] = [(body, ())]
    while waiting:
        node, blocks = waiting.pop()
        if isinstance(node, Expression):
            yield node, blocks
        inner = blocks + (node,) if isinstance(node, Block) else blocks
        waiting.extend((part, inner) for part in reversed(parts(node)))


def parts(node: object) -> list[object]:
    """The nodes directly within a node that are bodies, expressions, operands, messages or primaries."""
    match node:
        case Body():
            return [statement.expression for statement in node.statements]
        case Expression():
            return [node.operand, *node.cascade]
        case Operand():
            return [node.primary, *node.messages]
        case Message():
            return list(node.arguments)
        case Paren():
            return [node.expression]
        case Block():
            return [node.body]
        case Brace():
            return list(node.elements)
    return []
