"""Statements that define classes or speak of them, as tools write them."""
from __future__ import annotations

from dataclasses import dataclass

from interchange.bodies import Brace, Expression, Literal, Message, Operand, Paren, Statement, Variable
from interchange.elements import is_name

from .program import ClassItem, CodeItem, Declares, NameItem, Program, Target
from .sources import Origin, Report, Spot, shown

INDEXED = {
    b"subclass:": b"none",
    b"variableSubclass:": b"object",
    b"variableByteSubclass:": b"byte",
}
REFUSED_SHAPES = frozenset((b"variableWordSubclass:", b"variableDoubleByteSubclass:", b"variableDoubleWordSubclass:",
                            b"weakSubclass:", b"ephemeronSubclass:", b"immediateSubclass:", b"variableLongSubclass:",
                            b"indexedSubclass:", b"compiledMethodSubclass:", b"variable:subclass:"))
SHAPES = {b"#none": b"none", b"#object": b"object", b"#objects": b"object", b"#byte": b"byte", b"#bytes": b"byte",
          b"#pointer": b"object", b"#normal": b"none", b"#variable": b"object", b"FixedLayout": b"none",
          b"VariableLayout": b"object", b"ByteLayout": b"byte"}
_LISTS = {b"instanceVariableNames:": "instance", b"classVariableNames:": "class_variables",
          b"poolDictionaries:": "pools", b"sharedPools:": "pools", b"classInstanceVariableNames:": "class_instance",
          b"slots:": "instance", b"sharedVariables:": "class_variables", b"classVariables:": "class_variables"}
_KEPT = {b"category:": b"category", b"package:": b"category"}
_DROPPED = frozenset((b"tag:", b"private:", b"module:", b"environment:", b"shape:"))
_DROPPED_OF_CLASS = frozenset((b"guid:", b"reorganize", b"organization", b"sourceCode:", b"isAbstract:",
                               b"addClassCategory:", b"shape:", b"import:", b"setCategory:", b"stamp:"))
_DROPPED_RECEIVERS = frozenset((b"SystemOrganization", b"SystemOrganizer", b"PackageLoader", b"FileStream",
                                b"ChangeSet", b"Undeclared", b"SmalltalkImage", b"Metacello", b"Gofer",
                                b"MetacelloPharoPlatform", b"Installer", b"Feature", b"Parcel", b"RPackageOrganizer"))


def is_good_name(report: Report, name: bytes, spot: Spot) -> bool:
    """Whether a variable may have this name; else it is refused."""
    if not is_name(name):
        report.refuse(spot, "%s is no name of a variable here" % shown(name))
    return is_name(name)


@dataclass
class Speaks:
    """A class, or the class of a class, to which a statement sends."""

    name: bytes
    class_side: bool
    messages: list[Message]


class Definitions:
    """Takes the statements of one text that define classes or speak of them."""

    def __init__(self, program: Program, origin: Origin) -> None:
        self.program = program
        self.origin = origin

    def take(self, statement: Statement) -> bool:
        """Whether the statement was one of these, and is done with."""
        expression = statement.expression
        if expression.targets or statement.caret is not None:
            return False
        return self._taken(expression) is not None

    def _spot(self, node: object) -> Spot:
        return self.origin.spot(node.start)

    def _refuse(self, node: object, text: str) -> None:
        self.program.report.refuse(self._spot(node), text)

    def _taken(self, expression: Expression) -> bytes | None:
        """The class that an expression defines or speaks of, empty where it is another remark, else None."""
        primary = expression.operand.primary
        if isinstance(primary, Literal) and primary.kind in ("string", "symbol") and not expression.messages:
            return b""
        if isinstance(primary, Paren) and not primary.expression.targets:
            inner = self._taken(primary.expression) if self._defines(primary.expression) else None
            return self._remarks(Speaks(inner, False, expression.messages)) if inner else None
        if self._pool(expression):
            return b""
        speaks = self._speaks(expression)
        if speaks is None or not speaks.messages:
            return None
        if speaks.name in _DROPPED_RECEIVERS:
            self._drop(speaks)
            return b""
        defined = self._definition(expression, speaks)
        return self._remarks(speaks) if defined is None else defined

    def _pool(self, expression: Expression) -> bool:
        """`Smalltalk at: #P put: Dictionary new` and `P at: 'X' put: 1`, where some class lists the pool P."""
        messages = expression.messages
        if len(messages) != 1 or messages[0].selector != b"at:put:":
            return False
        key, value = messages[0].arguments
        name = self._literal_name(key)
        pool = self._pool_of(expression.operand)
        if name is None or pool is None:
            return False
        if pool == b"Smalltalk":
            self.program.add(NameItem(Declares.POOL, name, self._spot(key)))
        else:
            self.program.add(NameItem(Declares.VARIABLE, name, self._spot(key), pool))
            code = self.origin.part(value.start, value.end)
            self.program.add(CodeItem(Target.POOL_NAME, [(b"", code)], code.spot(), name, pool))
        return True

    def _pool_of(self, operand: Operand) -> bytes | None:
        """The pool that is the receiver, or Smalltalk where a pool is made."""
        primary, name = operand.primary, None
        if isinstance(primary, Paren):
            inner = primary.expression.operand
            if isinstance(inner.primary, Variable) and inner.primary.text == b"Smalltalk" and inner.messages:
                name = self._literal_name(inner.messages[0].arguments[0]) if inner.messages[0].arguments else None
        elif isinstance(primary, Variable):
            name = primary.text.rpartition(b".")[2]
        if name == b"Smalltalk":
            made = self._literal_name(operand.messages[0].arguments[0])
            return name if made in self.program.pool_names else None
        return name if name in self.program.pool_names else None

    def _drop(self, speaks: Speaks) -> None:
        """What loads or files elsewhere has no effect here."""
        if speaks.name != b"SystemOrganization":
            spot = self.origin.spot(speaks.messages[0].start)
            self.program.report.warn(spot, "%s loads nothing here" % shown(speaks.name), "loads", speaks.name)

    def _speaks(self, expression: Expression) -> Speaks | None:
        """The class to which an expression sends, and its messages behind `class`."""
        name = self.class_named(expression.operand)
        if name is None:
            return None
        messages = expression.operand.messages
        class_side = len(messages) > 1 and messages[0].selector == b"class"
        own = messages[1:] if class_side else messages
        if len(own) == 1 or (len(own) == 2 and own[0].selector == b"<<"):
            return Speaks(name, class_side, own + expression.cascade)
        return None

    def class_named(self, operand: Operand) -> bytes | None:
        """The name of the class that a primary is, without namespaces."""
        primary = operand.primary
        if isinstance(primary, Literal) and primary.kind == "nil":
            return b"nil"
        if isinstance(primary, Literal) and primary.kind == "binding":
            inner = self.origin.bytes[primary.start + 2 : primary.end - 1].strip()
            return inner.rpartition(b".")[2]
        if isinstance(primary, Variable):
            return primary.text.rpartition(b".")[2]
        return None

    # definitions

    def _defines(self, expression: Expression) -> bool:
        """Whether an expression is a definition of a class."""
        messages = expression.messages
        first = [message.parts[0].text for message in messages if message.parts]
        return any(part in INDEXED or part in REFUSED_SHAPES or part == b"<<" for part in first)

    def _definition(self, expression: Expression, speaks: Speaks) -> bytes | None:
        """The class that an expression defines, or None."""
        first = speaks.messages[0]
        key = first.parts[0].text
        if key in REFUSED_SHAPES:
            self._refuse(first, "%s makes a kind of class that isn't here" % shown(key))
            return b""
        if key in INDEXED and not speaks.class_side:
            return self._subclass(speaks)
        if key == b"<<":
            return self._fluid(speaks)
        if key == b"defineClass:":
            return self._visualworks_class(first)
        if key == b"defineSharedVariable:":
            return self._shared_variable(speaks, first)
        if first.selector.startswith(b"named:") and speaks.name == b"Trait":
            self._refuse(first, "traits aren't here")
            return b""
        return None

    def _subclass(self, speaks: Speaks) -> bytes:
        first = speaks.messages[0]
        name = self._literal_name(first.arguments[0])
        if name is None:
            self._refuse(first, "a class is made whose name is no literal")
            return b""
        item = ClassItem(name, speaks.name, self._spot(first.arguments[0]), INDEXED[first.parts[0].text])
        for part, argument in list(zip(first.parts, first.arguments))[1:]:
            self._say(item, part.text, argument, self.origin.spot(part.start))
        self.program.add(item)
        self._remarks(Speaks(name, False, speaks.messages[1:]))
        return name

    def _fluid(self, speaks: Speaks) -> bytes | None:
        """Pharo's `Object << #A slots: {}; package: 'P'`, or of a class side `Object class << A class slots: {}`."""
        first = speaks.messages[0]
        argument = first.arguments[0]
        says = [row for message in speaks.messages[1:] for row in zip(message.parts, message.arguments)]
        if speaks.class_side or [message.selector for message in argument.messages] == [b"class"]:
            name = self.class_named(argument)
            for part, value in says:
                self._say_of_class_side(name or b"", part.text, value, self.origin.spot(part.start))
            return name
        name = self._literal_name(argument)
        if name is None:
            return None
        item = ClassItem(name, speaks.name, self._spot(argument))
        tags = [self.text_of(value) for part, value in says if part.text == b"tag:"]
        for part, value in says:
            self._say(item, part.text, value, self.origin.spot(part.start))
        category = dict(item.annotations).get(b"category")
        if category and tags and tags[0]:
            item.annotate(b"category", category + b"-" + tags[0])
        self.program.add(item)
        return name

    def _say(self, item: ClassItem, key: bytes, value: Operand, spot: Spot) -> None:
        """What a definition says of its class behind a keyword."""
        report = self.program.report
        if key in _LISTS:
            self.set_names(item, _LISTS[key], self._names(value, key))
        elif key in _KEPT:
            item.annotate(_KEPT[key], self.text_of(value) or b"")
        elif key == b"comment:":
            item.annotate(b"comment", self.text_of(value) or b"")
        elif key == b"layout:" or key == b"indexedType:":
            self._shape(item, value)
        elif key == b"imports:":
            if (self.text_of(value) or b"").strip():
                report.warn(spot, "imports are dropped", "imports", spot)
        elif key in (b"uses:", b"traits:", b"uses"):
            if not self._is_empty(value):
                report.refuse(spot, "traits aren't here")
        elif key not in _DROPPED:
            report.refuse(spot, "%s isn't known in the definition of a class" % shown(key))

    def _shape(self, item: ClassItem, value: Operand) -> None:
        word = self.origin.bytes[value.start : value.end]
        if word in SHAPES:
            item.indexed = SHAPES[word]
        else:
            self._refuse(value, "%s is a kind of class that isn't here" % shown(word))

    def set_names(self, item: ClassItem, which: str, names: list[tuple[bytes, Spot]]) -> None:
        """Sets one of a class's lists of names; what is no name is refused."""
        setattr(item, which, [name for name, spot in names if self.is_good(name, spot)])

    def is_good(self, name: bytes, spot: Spot) -> bool:
        return is_good_name(self.program.report, name, spot)

    def _visualworks_class(self, message: Message) -> bytes:
        says = {part.text: argument for part, argument in zip(message.parts, message.arguments)}
        name = self._literal_name(message.arguments[0])
        above = self.class_named(says[b"superclass:"]) if b"superclass:" in says else None
        if name is None or above is None:
            self._refuse(message, "a class is made whose name or superclass is no literal")
            return b""
        item = ClassItem(name, above, self._spot(message.arguments[0]))
        for part, argument in zip(message.parts, message.arguments):
            if part.text not in (b"defineClass:", b"superclass:"):
                self._say(item, part.text, argument, self.origin.spot(part.start))
        self.program.add(item)
        return name

    def _shared_variable(self, speaks: Speaks, message: Message) -> bytes:
        """VisualWorks' class variable with its initializer, or a global one where a namespace has it."""
        says = {part.text: argument for part, argument in zip(message.parts, message.arguments)}
        name = self._literal_name(message.arguments[0])
        if name is None:
            self._refuse(message, "a variable is made whose name is no literal")
            return b""
        source = self._code_of(says.get(b"initializer:"))
        if speaks.name in (b"Smalltalk", b"Root"):
            self.program.add(NameItem(Declares.VARIABLE, name, self._spot(message)))
            self.program.report.refuse(self._spot(message), "a variable of a namespace isn't here")
            return b""
        self.program.remark(speaks.name, self._spot(message), lambda item: item.class_variables.append(name), True)
        if source:
            self.program.initialize_class(speaks.name, name, source)
        return speaks.name

    def _code_of(self, operand: Operand | None) -> Origin | None:
        """The code that a string literal holds."""
        primary = operand.primary if operand else None
        if not isinstance(primary, Literal) or primary.kind != "string" or operand.messages:
            return None
        inner = self.origin.part(primary.start + 1, primary.end - 1)
        return Origin(inner.source, inner.text.undoubled(b"'"))

    # remarks

    def _remarks(self, speaks: Speaks) -> bytes | None:
        """Takes messages to a class that speak of it, if all of them do."""
        if not speaks.messages:
            return speaks.name
        if not all(self._is_remark(speaks, message) for message in speaks.messages):
            return None
        for message in speaks.messages:
            self._remark(speaks, message)
        return speaks.name or b""

    def _is_remark(self, speaks: Speaks, message: Message) -> bool:
        key = message.parts[0].text
        if speaks.class_side and key in (b"instanceVariableNames:", b"slots:", b"uses:", b"comment:"):
            return True
        known = key in _LISTS or key in _KEPT or key in _DROPPED_OF_CLASS or message.selector in (
            b"comment:", b"yourself", b"removeSelector:", b"addInstVarName:", b"addInstVarNamed:", b"addClassVarName:",
            b"addClassVarNamed:", b"commentStamp:prior:")
        return known and self.program_speaks_of_class(speaks)

    def program_speaks_of_class(self, speaks: Speaks) -> bool:
        return speaks.name[:1].isupper() and speaks.name not in (b"Smalltalk", b"Transcript")

    def _remark(self, speaks: Speaks, message: Message) -> None:
        if message.selector == b"removeSelector:":
            selector = self._literal_name(message.arguments[0], selector=True)
            if selector:
                self.program.removals.append((speaks.name, speaks.class_side, selector, self._spot(message)))
            return
        for part, argument in zip(message.parts, message.arguments):
            if part.text == b"prior:":
                continue
            spot = self.origin.spot(part.start)
            if speaks.class_side:
                self._say_of_class_side(speaks.name, part.text, argument, spot)
            else:
                self._say_of_class(speaks.name, part.text, argument, spot)

    def _say_of_class(self, name: bytes, key: bytes, value: Operand, spot: Spot) -> None:
        if key in (b"addInstVarName:", b"addInstVarNamed:", b"addClassVarName:", b"addClassVarNamed:"):
            added = self._literal_name(value) or b""
            which = "instance" if b"Inst" in key else "class_variables"
            if self.is_good(added, spot):
                self.program.remark(name, spot, lambda item: getattr(item, which).append(added), True)
        elif key in _LISTS or key in _KEPT or key == b"comment:":
            self.program.remark(name, spot, lambda item: self._say(item, key, value, spot))

    def _say_of_class_side(self, name: bytes, key: bytes, value: Operand, spot: Spot) -> None:
        if key in (b"instanceVariableNames:", b"slots:"):
            names = self._names(value, key)
            self.program.remark(name, spot, lambda item: self.set_names(item, "class_instance", names), True)
        elif key in (b"uses:", b"traits:") and not self._is_empty(value):
            self.program.report.refuse(spot, "traits aren't here")

    # literals

    def text_of(self, operand: Operand) -> bytes | None:
        """The text of a string or symbol, empty for nil."""
        primary = operand.primary
        if operand.messages or not isinstance(primary, Literal):
            return None
        if primary.kind == "nil":
            return b""
        return primary.value if primary.kind in ("string", "symbol") else None

    def _literal_name(self, operand: Operand, selector: bool = False) -> bytes | None:
        text = self.text_of(operand)
        if text is None or not (selector or is_name(text)):
            return None
        return text

    def _is_empty(self, operand: Operand) -> bool:
        primary = operand.primary
        if operand.messages:
            return False
        if isinstance(primary, Brace):
            return not primary.elements
        return isinstance(primary, Literal) and (primary.kind == "nil" or not primary.value)

    def _names(self, operand: Operand, key: bytes) -> list[tuple[bytes, Spot]]:
        """The names that a string, an array of symbols or a brace of slots lists, and where each stands."""
        primary = operand.primary
        text = self.text_of(operand)
        if text is not None:
            return [(name, self._spot(operand)) for name in text.split()]
        if isinstance(primary, Literal) and primary.kind == "array" and not operand.messages:
            return [(item.value if isinstance(item.value, bytes) else b"?", self._spot(item))
                    for item in primary.value]
        if isinstance(primary, Brace) and not operand.messages:
            return [(self._slot(element), self._spot(element)) for element in primary.elements]
        self._refuse(operand, "%s asks for a literal list of names" % shown(key))
        return []

    def _slot(self, element: Expression) -> bytes:
        """The name of a slot: `#x`, or `#x => InstanceVariableSlot`; another slot is no name."""
        primary = element.operand.primary
        if isinstance(primary, Literal) and primary.kind == "symbol" and not element.targets:
            if not element.messages:
                return primary.value
            written = self.origin.bytes[primary.end : element.end].split()
            if written in ([b"=>", b"InstanceVariableSlot"], [b"=>", b"ClassVariable"]):
                return primary.value
        if isinstance(primary, Variable) and not element.messages:
            return primary.text.rpartition(b".")[2]
        return self.origin.bytes[element.start : element.end]
