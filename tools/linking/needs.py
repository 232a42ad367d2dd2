"""What the text of a method or initializer names: messages that it sends, names that it doesn't declare, literals."""
from __future__ import annotations

from dataclasses import dataclass, field

from interchange.bodies import Block, Body, Expression, Literal, Message, Method, Variable, expressions, parts
from interchange.elements import Unit, UnitKind

_CLASS_OF_LITERAL = {"integer": b"Integer", "character": b"Character", "string": b"String", "symbol": b"Symbol",
                     "array": b"Array"}
_RESERVED = frozenset((b"self", b"super", b"thisContext"))


@dataclass(slots=True)
class Needs:
    """What is named. `sent` has each selector with the offset at which it is sent first; `symbols` are literals that
    may be sent by `perform:`; `literals` are the classes of the literals."""

    sent: dict[bytes, int] = field(default_factory=dict)
    symbols: set[bytes] = field(default_factory=set)
    names: set[bytes] = field(default_factory=set)
    literals: set[bytes] = field(default_factory=set)


def needs_of(unit: Unit) -> Needs:
    """What a unit names. Of a class that is its superclass and its pools."""
    if unit.kind is UnitKind.CLASS:
        return Needs(names={unit.superclass, *unit.names.pools})
    tree, _ = unit.parse()
    return Needs() if tree is None else needs_of_tree(tree)


def needs_of_tree(tree: Method | Body) -> Needs:
    """What a method or body names."""
    needs = Needs()
    method = isinstance(tree, Method)
    body = tree.body if method else tree
    outer = {name.text for name in body.temporaries}
    if method:
        outer.update(name.text for name in tree.parameters)
    for expression, blocks in expressions(body):
        _note(needs, expression, outer.union(*map(_declared, blocks)))
    return needs


def _declared(block: Block) -> set[bytes]:
    return {name.text for name in (*block.parameters, *block.body.temporaries)}


def _note(needs: Needs, expression: Expression, declared: set[bytes]) -> None:
    """Notes what stands in an expression itself; those within it come by themselves."""
    needs.names.update(target.text for target in expression.targets if target.text not in declared)
    waiting: list[object] = parts(expression)
    while waiting:
        node = waiting.pop()
        if isinstance(node, Message):
            needs.sent[node.selector] = min(node.start, needs.sent.get(node.selector, node.start))
        elif isinstance(node, Variable) and node.text not in declared | _RESERVED:
            needs.names.add(node.text)
        elif isinstance(node, Literal):
            _note_literal(needs, node)
        waiting.extend(part for part in parts(node) if not isinstance(part, (Expression, Body)))


def _note_literal(needs: Needs, literal: Literal) -> None:
    """Notes a literal and those within it."""
    waiting = [literal]
    while waiting:
        one = waiting.pop()
        if one.kind in _CLASS_OF_LITERAL:
            needs.literals.add(_CLASS_OF_LITERAL[one.kind])
        if one.kind == "symbol":
            needs.symbols.add(one.value)
        if one.kind == "array":
            waiting.extend(one.value)
