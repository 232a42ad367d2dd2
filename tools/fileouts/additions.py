"""Methods that keep the meaning of the tool: `initialize` behind `new`, and `printString` by `printOn:`."""
from __future__ import annotations

from interchange import builtins

from .names import Names
from .program import ClassItem, MethodItem, Program

Row = tuple[bytes, bool, bytes, bytes]

INITIALIZES: list[Row] = [
    (b"Object", True, b"new", b"new\n\t^super new initialize"),
    (b"Object", True, b"basicNew", b"basicNew\n\t^super new"),
    (b"Object", False, b"initialize", b'initialize\n\t"what subclasses do to a new object"'),
]


def initialize_rows(program: Program, names: Names) -> list[Row]:
    """What makes `new` send `initialize`, and the same for each topmost exception class that has one."""
    having = {item.class_name for item in program.methods() if item.selector == b"initialize" and not item.class_side}
    if not having:
        return []
    defined = {item.key() for item in program.methods()}
    rows = [row for row in INITIALIZES if row[:3] not in defined]
    for name, item in names.classes.items():
        if item.superclass in builtins.EXCEPTION_CLASSES and having & set(_with_subclasses(name, names)):
            rows += _exception_rows(name, defined)
    return rows


def _exception_rows(name: bytes, defined: set[tuple[bytes, bool, bytes]]) -> list[Row]:
    rows = [(name, True, b"new", b"new\n\t^super new initialize"),
            (name, True, b"signal", b"signal\n\t^self new signal"),
            (name, True, b"signal:", b"signal: aString\n\t^self new signal: aString"),
            (name, False, b"initialize", b'initialize\n\t"what subclasses do to a new exception"')]
    return [row for row in rows if row[:3] not in defined]


def _with_subclasses(name: bytes, names: Names) -> list[bytes]:
    return [other for other in names.classes if other == name or name in names.superclasses(other)]


def print_rows(program: Program, names: Names) -> list[Row]:
    """A `printString` by `printOn:` for each class of the files that defines the second and not the first."""
    defined = {item.key() for item in program.methods()}
    rows = []
    for item in program.methods():
        if item.selector != b"printOn:" or (item.class_name, item.class_side, b"printString") in defined:
            continue
        above = names.superclasses(item.class_name)
        if item.class_name in names.classes and not any((name, item.class_side, b"printOn:") in defined
                                                        for name in above if name in names.classes):
            rows.append((item.class_name, item.class_side, b"printString",
                         b"printString\n\t^String streamContents: [:aStream | self printOn: aStream]"))
    return rows


def has_initialize(program: Program) -> list[MethodItem]:
    """The methods `initialize` of instances."""
    return [item for item in program.methods() if item.selector == b"initialize" and not item.class_side]


def sorted_classes(program: Program) -> list[ClassItem]:
    """All classes, each behind its superclass, and else in the order of the files."""
    classes = program.classes()
    found: dict[bytes, ClassItem] = {}
    for name in classes:
        waiting = []
        while name in classes and name not in found and name not in waiting:
            waiting.append(name)
            name = classes[name].superclass
        for above in reversed(waiting):
            found[above] = classes[above]
    return list(found.values())
