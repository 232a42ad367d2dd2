"""One method or body: which selectors it sends, which names it uses, and which of these it declares itself."""
from __future__ import annotations

import functools
from dataclasses import dataclass, field

from interchange.bodies import Block, Body, Expression, Literal, Message, Method, Name, Operand, Paren, Parser, Variable
from interchange.tokens import Kind, Token

PSEUDO = frozenset((b"self", b"super"))
Span = tuple[int, int]


@dataclass(frozen=True, slots=True)
class Send:
    """A message: its selector, and where the parts of it stand."""

    selector: bytes
    parts: tuple[Span, ...]
    to_self: bool = False
    to_super: bool = False


@dataclass(frozen=True, slots=True)
class Use:
    """A name at a place: in the scope that declares it (its number), or None where the text doesn't declare it."""

    name: bytes
    span: Span
    role: str
    scope: int | None
    kind: str = ""


@dataclass(slots=True)
class Analysis:
    """What stands in a text, with offsets in it.

    `pattern` is where the parts of a method's selector stand. `sent` are all selectors, `read` the names of the surroundings
    that are read, `idle` the temporaries that never are.
    """

    selector: bytes = b""
    pattern: tuple[Span, ...] = ()
    sends: list[Send] = field(default_factory=list)
    symbols: list[tuple[bytes, Span]] = field(default_factory=list)
    uses: list[Use] = field(default_factory=list)
    scopes: list[tuple[Span, tuple[bytes, ...]]] = field(default_factory=list)
    sent: frozenset[bytes] = frozenset()
    read: frozenset[bytes] = frozenset()
    idle: tuple[Use, ...] = ()


def spans(tokens: list[Token]) -> tuple[Span, ...]:
    """Where tokens stand."""
    return tuple((token.start, token.end) for token in tokens)


class Walk:
    """Goes through a tree, with the scopes around the place at which it is."""

    def __init__(self, found: Analysis):
        self.found = found
        self.around: list[dict[bytes, tuple[int, str]]] = []

    def scope(self, span: Span, declared: list[tuple[Name, str]]) -> None:
        """Opens a scope with these names."""
        number = len(self.found.scopes)
        self.found.scopes.append((span, tuple(name.text for name, _ in declared)))
        self.around.append({name.text: (number, kind) for name, kind in declared})
        for name, kind in declared:
            self.found.uses.append(Use(name.text, (name.start, name.end), "declares", number, kind))

    def used(self, name: bytes, span: Span, role: str) -> None:
        """A use of a name, in the innermost scope that declares it."""
        for scope in reversed(self.around):
            if name in scope:
                self.found.uses.append(Use(name, span, role, *scope[name]))
                return
        self.found.uses.append(Use(name, span, role, None))

    def body(self, body: Body) -> None:
        """The statements of a body, whose scope is open."""
        for statement in body.statements:
            self.expression(statement.expression)

    def block(self, block: Block) -> None:
        """A block, with its scope."""
        declared = [(name, "parameter") for name in block.parameters]
        declared += [(name, "temporary") for name in block.body.temporaries]
        self.scope((block.start, block.end), declared)
        self.body(block.body)
        self.around.pop()

    def expression(self, expression: Expression) -> None:
        """Targets, operand and cascade."""
        for target in expression.targets:
            self.used(target.text, (target.start, target.end), "assigns")
        self.operand(expression.operand)
        for message in expression.cascade:
            self.message(message, None)

    def operand(self, operand: Operand) -> None:
        """A primary with its messages."""
        primary = operand.primary
        if isinstance(primary, Variable) and primary.text not in PSEUDO:
            self.used(primary.text, (primary.start, primary.end), "reads")
        elif isinstance(primary, Paren):
            self.expression(primary.expression)
        elif isinstance(primary, Block):
            self.block(primary)
        elif isinstance(primary, Literal):
            self.literal(primary)
        receiver = primary.text if isinstance(primary, Variable) else None
        for message in operand.messages:
            self.message(message, receiver)
            receiver = None

    def message(self, message: Message, receiver: bytes | None) -> None:
        """A message, and the operands that are its arguments."""
        send = Send(message.selector, spans(message.parts), receiver == b"self", receiver == b"super")
        self.found.sends.append(send)
        for argument in message.arguments:
            self.operand(argument)

    def literal(self, literal: Literal) -> None:
        """The symbols of a literal."""
        waiting = [literal]
        while waiting:
            one = waiting.pop()
            if one.kind == "symbol" and isinstance(one.value, bytes):
                self.found.symbols.append((one.value, (one.start, one.end)))
            elif one.kind == "array" and isinstance(one.value, list):
                waiting.extend(one.value)


def pattern_of(method: Method, tokens: list[Token]) -> tuple[Span, ...]:
    """Where the parts of a method's selector stand in its pattern."""
    within = [token for token in tokens if token.end <= method.pattern_end]
    if within and within[0].kind is Kind.KEYWORD:
        within = [token for token in within if token.kind is Kind.KEYWORD]
    else:
        within = within[:1]
    return spans(within)


@functools.lru_cache(maxsize=65536)
def analysis(text: bytes, is_method: bool) -> Analysis:
    """What stands in the text of a method or of a body."""
    parser = Parser(text)
    found = Analysis()
    walk = Walk(found)
    if is_method:
        method = parser.method()
        found.selector, found.pattern = method.selector, pattern_of(method, parser.tokens)
        body, parameters = method.body, method.parameters
    else:
        body, parameters = parser.body(), []
    declared = [(name, "parameter") for name in parameters] + [(name, "temporary") for name in body.temporaries]
    walk.scope((0, len(text)), declared)
    walk.body(body)
    summed_up(found)
    return found


def summed_up(found: Analysis) -> None:
    """Notes what is sent, which names of the surroundings are read, and which temporaries never are."""
    found.sent = frozenset(send.selector for send in found.sends)
    found.read = frozenset(use.name for use in found.uses if use.scope is None and use.role == "reads")
    own = {(use.scope, use.name) for use in found.uses if use.role == "reads"}
    found.idle = tuple(
        use
        for use in found.uses
        if use.role == "declares" and use.kind == "temporary" and (use.scope, use.name) not in own
    )
