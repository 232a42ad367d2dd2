"""Statements of a file: those that define classes are taken, the rest is code that runs."""
from __future__ import annotations

from interchange.bodies import Body, Parser

from .definitions import Definitions
from .program import Program
from .sources import Origin


def take_statements(program: Program, origin: Origin) -> None:
    """Reads a text of statements into the program.

    What defines classes or speaks of them is taken out. Code before it and behind it stays in one piece, since the
    definitions of a program hold from its beginning.
    """
    parser = Parser(origin.bytes, origin.source.tool.dialect)
    body = parser.body()
    definitions = Definitions(program, origin)
    taken = [statement for statement in body.statements if definitions.take(statement)]
    if len(taken) == len(body.statements) and not parser.faults:
        return
    if not taken:
        program.run(origin)
        return
    program.run(_without(origin, body, taken))


def _without(origin: Origin, body: Body, taken: list) -> Origin:
    """The text with white space in place of the statements that were taken, so that places stay."""
    text = bytearray(origin.bytes)
    for statement in taken:
        end = statement.end
        period = origin.bytes.find(b".", end)
        if period >= 0 and not origin.bytes[end:period].strip():
            end = period + 1
        for at in range(statement.start, end):
            text[at] = text[at] if text[at] in b"\r\n" else 0x20
    blanked = type(origin.text)(bytes(text), origin.text.start, origin.text.skips)
    return Origin(origin.source, blanked)
