"""The bodies of methods and initializers: what is rewritten, what is refused, what is sent."""
from __future__ import annotations

import re
from dataclasses import dataclass, field

from interchange.bodies import (Block, Body, Brace, Expression, Fault, Literal, Message, Name, Operand, Paren, Parser,
                                Pragma, Variable, parts)
from interchange.elements import is_name
from interchange.tokens import Kind, tokens_of

from .edits import Edits, trimmed, with_line_feeds
from .names import Names, Stands
from .program import CodeItem, MethodItem, Target
from .sources import Origin, Report, Spot, shown

FAULTS = {
    "Syntax": "this can't stand here",
    "Cascade": "only one message may stand behind `;`",
    "BadCharacter": "this begins nothing",
    "OpenString": "a string without end",
    "OpenComment": "a comment without end",
    "BadRadix": "a digit isn't below the radix, or the radix isn't in 2 to 36",
    "IntegerTooLarge": "an integer past 2^127",
    "TooDeep": "more than 200 brackets are open",
}
ANSWERS_STRING = frozenset((b"printString", b"displayString", b"asString", b"printString:", b","))
SHOWS = {b"show:": b"displayString", b"display:": b"displayString", b"print:": b"printString"}
APPLIES = frozenset((b"ifTrue:", b"ifFalse:", b"ifTrue:ifFalse:", b"ifFalse:ifTrue:", b"and:", b"or:"))
STANDARD_SPACES = frozenset((b"Smalltalk", b"Core", b"Kernel", b"Root", b"SystemExceptions"))
EACH = (b"[%s]\n\ton: Error\n\tdo: [:error | Transcript show: error class name; show: ': '; "
        b"show: error messageText displayString; cr]")
"""A piece of code whose Errors are shown, and don't end the program."""
_PLAIN_INTEGER = re.compile(rb"-?[0-9]+(?:r[0-9A-Z]+)?\Z")


@dataclass
class Scope:
    """Where a text stands: its class and side, or that it is a program's initializer."""

    class_name: bytes = b"UndefinedObject"
    class_side: bool = False
    is_doit: bool = False


@dataclass
class Coder:
    """Rewrites texts, and gathers what they send and which globals they want."""

    names: Names
    report: Report
    shared: dict[int, set[bytes]] = field(default_factory=dict)
    each: bool = False
    sent: dict[bytes, Spot] = field(default_factory=dict)
    wanted: dict[bytes, Spot] = field(default_factory=dict)
    applies_objects: bool = False

    def method(self, item: MethodItem) -> bytes | None:
        """The text of a method, None where it is refused."""
        return Walk(self, item.origin, Scope(item.class_name, item.class_side)).method(item)

    def code(self, item: CodeItem) -> bytes | None:
        """The text of an initializer, None where it is refused."""
        scope = Scope(item.name, True) if item.target is Target.CLASS and self.names.is_class(item.name) else Scope()
        scope.is_doit = item.target is Target.PROGRAM
        texts = [self._part(variable, origin, scope) for variable, origin in item.parts]
        if None in texts:
            return None
        text = b"\n".join(texts)
        return EACH % text if self.each and scope.is_doit and has_code(text) else text

    def _part(self, variable: bytes, origin: Origin, scope: Scope) -> bytes | None:
        walk = Walk(self, origin, scope)
        text = walk.code()
        if text is None or not variable:
            return text
        single = len(walk.body.statements) == 1 and not walk.body.temporaries and not walk.body.statements[0].caret
        value = text.rstrip(b".\n\t ") if single and not text.endswith(b"$.") else b"[%s] value" % text
        return b"%s := %s." % (variable, value)


class Walk:
    """Goes over the tree of one text."""

    def __init__(self, coder: Coder, origin: Origin, scope: Scope) -> None:
        self.coder = coder
        self.names = coder.names
        self.report = coder.report
        self.origin = origin
        self.scope = scope
        self.dialect = origin.source.tool.dialect
        self.text = origin.bytes
        self.edits = Edits(self.text)
        self.locals: list[dict[bytes, Stands]] = []
        self.refused = False
        self.body = Body()
        self.annotations: list[tuple[bytes, bytes]] = []

    # whole texts

    def method(self, item: MethodItem) -> bytes | None:
        parser = Parser(self.text, self.dialect)
        tree = parser.method()
        item.selector = tree.selector
        self._tree(parser, tree.body, tree.parameters)
        for key, value in self.annotations:
            item.annotations = [row for row in item.annotations if row[0] != key] + [(key, value)]
        return self._finished(is_method=True)

    def code(self) -> bytes | None:
        parser = Parser(self.text, self.dialect)
        self._tree(parser, parser.body(), [])
        return self._finished(is_method=False)

    def _tree(self, parser: Parser, body: Body, parameters: list[Name]) -> None:
        self.body = body
        for fault in parser.faults:
            self._refuse(fault.at, self._said(fault))
        for token in parser.tokens:
            if token.kind is Kind.CHARACTER and token.end - token.start > 2:
                self._refuse(token.start, "a character beyond one byte")
            elif token.kind is Kind.ASSIGN and token.text == b"_":
                self.edits.replace(token.start, token.end, b":=")
            elif token.kind in (Kind.SYMBOL, Kind.QUOTED_SYMBOL) and token.text.startswith(b"##"):
                self.edits.replace(token.start, token.start + 1, b"")
        self._pragmas(body)
        self._scoped(body, parameters)

    def _said(self, fault: Fault) -> str:
        if fault.reason == "BadCharacter" and self.text[fault.at : fault.at + 1] > b"\x7f":
            return "a name beyond ASCII"
        return FAULTS[fault.reason]

    def _finished(self, is_method: bool) -> bytes | None:
        """The edited text, which `stx` reads; None where something is refused."""
        if self.refused:
            return None
        edited = trimmed(self.edits.result())
        text = edited if self.dialect.underscore_assigns is False else with_line_feeds(edited)
        parser = Parser(text)
        parser.method() if is_method else parser.body()
        if parser.faults:
            deep = parser.faults[0].reason == "TooDeep"
            self._refuse(0, "braces are nested too deep" if deep else "what this would become can't be read")
            return None
        if len(text) >= 1 << 20:
            self._refuse(0, "longer than an element may be")
            return None
        return text

    def _refuse(self, at: int, text: str) -> None:
        self.refused = True
        self.report.refuse(self.origin.spot(at), text)

    def _warn(self, at: int, text: str, *key: object) -> None:
        self.report.warn(self.origin.spot(at), text, *key)

    # bodies

    def _pragmas(self, body: Body) -> None:
        for pragma in body.pragmas:
            self.edits.replace(pragma.start, pragma.end, b"")
            self._pragma(pragma)

    def _pragma(self, pragma: Pragma) -> None:
        word = pragma.selector.partition(b":")[0]
        value = pragma.arguments[0].value if pragma.arguments else None
        if word in (b"primitive", b"cdecl", b"apicall", b"cCall", b"stdcall", b"syscall"):
            self._refuse(pragma.start, "a primitive isn't here")
        elif word in (b"category", b"comment") and isinstance(value, bytes):
            self.annotations.append((word, value))
        else:
            self._warn(pragma.start, "<%s> is dropped" % shown(pragma.selector), "pragma", pragma.selector)

    def _scoped(self, body: Body, parameters: list[Name]) -> None:
        """A body with its names, and what is declared within it."""
        scope: dict[bytes, Stands] = {}
        for name in parameters:
            self._declare(scope, name, Stands.FIXED)
        self._declarations(body)
        shared = self._shared()
        for name in body.temporaries:
            if name.text not in shared:
                self._declare(scope, name, Stands.ASSIGNABLE)
        self.locals.append(scope)
        for period in body.periods:
            self.edits.replace(period, period + 1, b"")
        self._statements(body)
        self.locals.pop()

    def _declare(self, scope: dict[bytes, Stands], name: Name, stands: Stands) -> None:
        if name.text in scope and scope[name.text] is Stands.FIXED or name.text in scope and stands is Stands.FIXED:
            self._refuse(name.start, "%s is declared twice" % shown(name.text))
        elif name.text in scope:
            self._declared_again(name)
        scope[name.text] = stands

    def _declared_again(self, name: Name) -> None:
        """A temporary of a name that is there; at the top of a file of GNU Smalltalk it is the same one."""
        if not self.scope.is_doit or self.locals:
            self._refuse(name.start, "%s is declared twice" % shown(name.text))

    def _declarations(self, body: Body) -> None:
        """Puts several declarations of temporaries into one, where the first stands or the body begins."""
        shared = self._shared()
        if not body.declarations or (len(body.declarations) == 1 and body.declarations[0].leading
                                     and not any(name.text in shared for name in body.temporaries)):
            return
        names = list(dict.fromkeys(name.text for name in body.temporaries if name.text not in shared))
        for declared in body.declarations:
            self.edits.replace(declared.start, declared.end, b"")
        first = body.declarations[0]
        place = first.start if first.leading else body.start
        written = b"| %s |" % b" ".join(names) if names else b""
        self.edits.wrap(place, written if first.leading else written + b"\n", place, b"")

    def _shared(self) -> set[bytes]:
        """Temporaries of this piece of code that others of the file use: they are global variables."""
        if self.locals or not self.scope.is_doit:
            return set()
        return self.coder.shared.get(self.origin.source.number, set())

    def _statements(self, body: Body) -> None:
        returned = False
        for statement in body.statements:
            if returned:
                self._refuse(statement.start, "this stands behind a return")
                return
            returned = statement.caret is not None
            self._expression(statement.expression, is_statement=not returned)

    # expressions

    def _expression(self, expression: Expression, is_statement: bool = False) -> None:
        for target in expression.targets:
            self._assign(target)
        alone = is_statement and not expression.targets and not expression.cascade
        self._operand(expression.operand, expression.cascade, alone)
        for message in expression.cascade:
            self._message(message)

    def _operand(self, operand: Operand, cascade: list[Message], alone: bool = False) -> None:
        """A primary and its messages; `cascade` are those that go to the receiver of the last one."""
        primary = operand.primary
        if isinstance(primary, Variable) and primary.text == b"Smalltalk" and self._smalltalk(operand, alone):
            return
        if isinstance(primary, Variable) and primary.text == b"Transcript" and not self._is_local(b"Transcript"):
            self._transcript(operand, cascade)
        self._primary(primary)
        self._meaning(operand)
        for message in operand.messages:
            self._message(message)

    def _message(self, message: Message) -> None:
        self.coder.sent.setdefault(message.selector, self.origin.spot(message.start))
        if message.selector in APPLIES and not all(isinstance(one.primary, Block) for one in message.arguments):
            self.coder.applies_objects = True
        for argument in message.arguments:
            self._operand(argument, [])

    def _primary(self, primary: object) -> None:
        if isinstance(primary, Variable):
            self._variable(primary)
        elif isinstance(primary, Literal):
            self._literal(primary)
        elif isinstance(primary, Block):
            self._scoped(primary.body, primary.parameters)
            self._pragmas(primary.body)
        elif isinstance(primary, Brace):
            self._brace(primary)
        elif isinstance(primary, Paren):
            self._expression(primary.expression)

    def _brace(self, brace: Brace) -> None:
        """`{a. b}`: an Array that is made, and filled from the left."""
        size = len(brace.elements)
        if size == 0:
            self.edits.replace(brace.start, brace.end, b"(Array new: 0)")
            return
        self.edits.replace(brace.start, brace.start + 1, b"((Array new: %d) " % size)
        self.edits.replace(brace.end - 1, brace.end, b"; yourself)")
        self._periods_out(brace)
        for index, element in enumerate(brace.elements, 1):
            before = b"at: %d put: (" % index if index == 1 else b"; at: %d put: (" % index
            self.edits.wrap(element.start, before, element.end, b")")
            self._expression(element)

    def _periods_out(self, brace: Brace) -> None:
        """Takes out the periods between the elements of a brace."""
        inner = [at for element in brace.elements for at in (element.start, element.end)]
        bounds = [brace.start + 1, *inner, brace.end - 1]
        for start, end in zip(bounds[::2], bounds[1::2]):
            for token in Parser(self.text[start:end], self.dialect).tokens:
                if token.kind is Kind.PERIOD:
                    self.edits.replace(start + token.start, start + token.end, b"")

    # names

    def _is_local(self, name: bytes) -> bool:
        return any(name in scope for scope in self.locals)

    def _find(self, name: bytes) -> Stands | None:
        for scope in reversed(self.locals):
            if name in scope:
                return scope[name]
        return self.names.find(self.scope.class_name, self.scope.class_side, name)

    def _assign(self, target: Name) -> None:
        stands = self._find(target.text)
        if stands is None:
            self._unknown(target.text, target.start)
        elif stands is Stands.FIXED:
            self._refuse(target.start, "nothing can be assigned to %s" % shown(target.text))

    def _variable(self, variable: Variable) -> None:
        name = variable.text
        if name in (b"self", b"super") or self._is_local(name):
            return
        if name == b"thisContext":
            self._refuse(variable.start, "thisContext isn't here")
            return
        if b"." in name:
            name = self._without_space(variable)
        real = self.names.real(name)
        if real != variable.text:
            self.edits.replace(variable.start, variable.end, real)
        if real != name:
            self._warn(variable.start, "%s is %s here" % (shown(name), shown(real)), "renamed", name)
        if self._find(real) is None:
            self._unknown(real, variable.start)

    def _without_space(self, variable: Variable) -> bytes:
        """The last part of a dotted name, where its namespace is a standard one or has a class of the files."""
        space, _, name = variable.text.rpartition(b".")
        if all(part in STANDARD_SPACES for part in space.split(b".")) or name in self.names.classes:
            return name
        self._refuse(variable.start, "a namespace isn't here")
        return b"Object"

    def _unknown(self, name: bytes, at: int) -> None:
        """A name that nothing declares: in statements of a file a global variable, in a method refused."""
        if name in self.names.pools:
            self._refuse(at, "%s is a pool, and no object here" % shown(name))
            return
        if not self.scope.is_doit or name == b"Smalltalk":
            self._refuse(at, "%s is declared nowhere" % shown(name))
            return
        self.coder.wanted.setdefault(name, self.origin.spot(at))
        shared = self.coder.shared.get(self.origin.source.number, set())
        if not self.origin.source.tool.is_gst and name not in shared:
            self._warn(at, "%s is declared nowhere, and becomes a global variable" % shown(name), "global", name)

    def _smalltalk(self, operand: Operand, alone: bool) -> bool:
        """`Smalltalk at: #X put: e`, `Smalltalk at: #X` and `Smalltalk X`; whether it was one of these."""
        if not operand.messages:
            return False
        message = operand.messages[0]
        name = self._named(message)
        if message.selector == b"at:put:" and name:
            value = message.arguments[1]
            self.edits.replace(operand.start, value.start, b"%s := " % name if alone else b"(%s := " % name)
            self.edits.wrap(value.start, b"", message.end, b"" if alone else b")")
            self._assign(Name(name, operand.start, operand.end))
            self._operand(value, [])
            return True
        unary = message.selector if message.selector[:1].isupper() and is_name(message.selector) else None
        if (message.selector == b"at:" and name) or unary:
            self._variable_instead(operand, message, name or unary)
            return True
        return False

    def _variable_instead(self, operand: Operand, message: Message, name: bytes) -> None:
        real = self.names.real(name)
        self.edits.replace(operand.start, message.end, real)
        if self._find(real) is None:
            self._unknown(real, operand.start)
        for further in operand.messages[1:]:
            self._message(further)

    def _named(self, message: Message) -> bytes | None:
        """The name that the first argument is as a literal."""
        if not message.arguments or message.arguments[0].messages:
            return None
        primary = message.arguments[0].primary
        if isinstance(primary, Literal) and primary.kind in ("symbol", "string") and is_name(primary.value):
            return primary.value
        return None

    # literals

    def _literal(self, literal: Literal) -> None:
        if literal.kind == "integer":
            self._integer(literal)
        elif literal.kind == "float":
            self._refuse(literal.start, "a float")
        elif literal.kind == "scaled":
            self._refuse(literal.start, "a scaled decimal")
        elif literal.kind == "binding":
            self._refuse(literal.start, "a literal binding isn't here")
        elif literal.kind == "compiled":
            self._refuse(literal.start, "an expression at compile time isn't here")
        elif literal.kind == "bytes":
            self._bytes(literal)
        elif literal.kind == "array":
            self._array(literal)
        elif literal.kind == "string" and b"\r" in self.text[literal.start : literal.end]:
            self._warn(literal.start, "a line end in a string is written as LF", "line end")

    def _integer(self, literal: Literal) -> None:
        written = self.text[literal.start : literal.end]
        if abs(literal.value) > 1 << 127 or literal.value == 1 << 127:
            self._refuse(literal.start, "an integer past 2^127")
        elif not _PLAIN_INTEGER.match(written):
            radix, _, figures = written.partition(b"r-")
            plain = b"-%sr%s" % (radix, figures) if figures.isalnum() and radix.isdigit() else b"%d" % literal.value
            self.edits.replace(literal.start, literal.end, plain)

    def _bytes(self, literal: Literal) -> None:
        values = [item.value for item in literal.value]
        if not all(0 <= value <= 255 for value in values):
            self._refuse(literal.start, "a byte is from 0 to 255")
            return
        self._warn(literal.start, "a literal byte array is made anew each time here, and can be changed", "bytes")
        if not values:
            self.edits.replace(literal.start, literal.end, b"(ByteArray new: 0)")
            return
        puts = b"; ".join(b"at: %d put: %d" % row for row in enumerate(values, 1))
        self.edits.replace(literal.start, literal.end, b"((ByteArray new: %d) %s; yourself)" % (len(values), puts))

    def _array(self, array: Literal) -> None:
        """The items of a literal array, inner ones too."""
        waiting = list(array.value)
        while waiting:
            item = waiting.pop()
            if item.kind == "bytes":
                self._refuse(item.start, "a byte array within a literal array isn't here")
            elif item.kind == "array":
                waiting.extend(item.value)
            else:
                self._literal(item)

    # meaning

    def _transcript(self, operand: Operand, cascade: list[Message]) -> None:
        """Messages that show any object: here they take a String."""
        if self.dialect.underscore_assigns is False or not operand.messages:
            return
        shows = [operand.messages[0], *(cascade if len(operand.messages) == 1 else [])]
        for message in shows:
            if message.selector in SHOWS:
                self._show(message)

    def _show(self, message: Message) -> None:
        argument = message.arguments[0]
        if message.selector != b"show:":
            self.edits.replace(message.parts[0].start, message.parts[0].end, b"show:")
        elif answers_string(argument):
            return
        selector = SHOWS[message.selector]
        if any(inner.parts[0].kind is Kind.OPERATOR for inner in argument.messages):
            self.edits.wrap(argument.start, b"(", argument.end, b") " + selector)
        else:
            self.edits.wrap(argument.start, b"", argument.end, b" " + selector)
        self.coder.sent.setdefault(b"show:", self.origin.spot(message.start))

    def _meaning(self, operand: Operand) -> None:
        """Warns of what is answered otherwise here."""
        if not operand.messages or self.dialect.underscore_assigns is False:
            return
        primary, first = operand.primary, operand.messages[0]
        name = primary.text if isinstance(primary, Variable) else b""
        if (name, first.selector) == (b"Character", b"cr"):
            self._warn(first.start, "Character cr is byte 13 here, and shows no line end", "cr")
        elif (name, first.selector) == (b"Object", b"new"):
            self._warn(first.start, "Object new can't be made here", "Object new")
        for before, message in zip([None, *operand.messages], operand.messages):
            is_string = (before is None and isinstance(primary, Literal) and primary.kind == "string") or (
                before is not None and before.selector in ANSWERS_STRING)
            if message.selector == b"collect:" and is_string:
                self._warn(message.start, "collect: of a String answers an Array here", "collect:")


def has_code(text: bytes) -> bool:
    """Whether more than comments stands in a text."""
    return bool(tokens_of(text).tokens)


def answers_string(operand: Operand) -> bool:
    """Whether it plainly is a String or a Symbol."""
    if operand.messages:
        return operand.messages[-1].selector in ANSWERS_STRING
    return isinstance(operand.primary, Literal) and operand.primary.kind in ("string", "symbol")


def nested_names(body: Body) -> set[bytes]:
    """The names that are assigned through `Smalltalk at: #X put:` somewhere in a body."""
    found: set[bytes] = set()
    waiting: list[object] = [body]
    while waiting:
        node = waiting.pop()
        waiting.extend(parts(node))
        if isinstance(node, Operand) and isinstance(node.primary, Variable) and node.primary.text == b"Smalltalk":
            found.update(name for message in node.messages[:1] if (name := _put_name(message)))
    return found


def _put_name(message: Message) -> bytes | None:
    if message.selector != b"at:put:" or message.arguments[0].messages:
        return None
    primary = message.arguments[0].primary
    if isinstance(primary, Literal) and primary.kind in ("symbol", "string") and is_name(primary.value):
        return primary.value
    return None
