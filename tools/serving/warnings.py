"""Warnings: what the standard allows and people want to hear of."""
from __future__ import annotations

from collections.abc import Callable, Iterator
from typing import Any

from interchange.elements import INITIALIZERS, METHODS, UnitKind
from serving.ways import View, selectors, text_of

WARNING = 2
VARIABLES = ("instance variable", "class instance variable", "class variable", "global", "pool variable")
DECLARING = (
    UnitKind.CLASS, UnitKind.GLOBAL_VARIABLE, UnitKind.GLOBAL_CONSTANT, UnitKind.POOL_VARIABLE, UnitKind.POOL_CONSTANT,
)
IsOld = Callable[[], bool]


def warning(view: View, span: tuple[int, int], text: str, code: str) -> dict[str, Any]:
    """A warning as a diagnostic."""
    return {"range": view.range(*span), "severity": WARNING, "source": "stx", "code": code, "message": text}


def unanswered(view: View) -> Iterator[dict[str, Any]]:
    """Selectors that no class here answers."""
    known = selectors(view.index)
    for _, text, found in view.index.texts:
        if found.sent <= known:
            continue
        place = text.text.place
        for send in (send for send in found.sends if send.selector not in known):
            span = (place(send.parts[0][0]), place(send.parts[0][1]))
            yield warning(view, span, "no class here answers `%s`" % text_of(send.selector), "unanswered")


def unread(view: View) -> Iterator[dict[str, Any]]:
    """Variables and temporaries that are never read. Parameters may go unread."""
    for unit in (unit for unit in view.index.units if unit.kind in DECLARING):
        place = unit.header.text.place
        for key, (start, end), role in view.index.header_names(unit):
            if role == "declares" and key[0] in VARIABLES and key not in view.index.read:
                yield warning(view, (place(start), place(end)), "`%s` is never read" % text_of(key[-1]), "unread")
    for _, text, found in view.index.texts:
        for use in found.idle:
            span = (text.text.place(use.span[0]), text.text.place(use.span[1]))
            yield warning(view, span, "`%s` is never read" % text_of(use.name), "unread")


def repeated(view: View) -> Iterator[dict[str, Any]]:
    """Methods that a superclass has word for word."""
    methods = {
        (unit.name, unit.class_side, found.selector): (text, found)
        for unit, text, found in view.index.texts
        if unit.kind in METHODS
    }
    for (name, side, selector), (text, found) in methods.items():
        above = ((one, methods.get((one, side, selector))) for one in view.index.above(name)[1:])
        of, other = next((row for row in above if row[1]), (b"", None))
        if other and found.pattern and other[0].text.bytes.split() == text.text.bytes.split():
            start, end = found.pattern[0]
            span = (text.text.place(start), text.text.place(end))
            yield warning(view, span, "%s has this method word for word" % text_of(of), "repeated")


def idle(view: View) -> Iterator[dict[str, Any]]:
    """A variable's initializer behind which nothing runs: nothing can see the value."""
    last = [unit for unit in view.index.units if unit.kind in INITIALIZERS][-1:]
    for unit in last:
        if unit.kind is not UnitKind.PROGRAM_INITIALIZER and unit.name not in view.index.classes:
            start = unit.header.text.place(len(unit.header.text.bytes) - len(unit.header.text.bytes.lstrip()))
            text = "nothing runs behind this initializer, so nothing sees the value"
            yield warning(view, (start, unit.header.end), text, "idle")


def warnings(view: View, is_old: IsOld) -> list[dict[str, Any]]:
    """All warnings of a file, by their places."""
    found: list[dict[str, Any]] = []
    for finder in (unanswered, unread, repeated, idle):
        if is_old():
            return []
        found += finder(view)
    return sorted(found, key=lambda one: (one["range"]["start"]["line"], one["range"]["start"]["character"]))
