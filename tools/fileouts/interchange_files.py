"""Interchange files: taken unit by unit, also such as `stx` doesn't read as they are."""
from __future__ import annotations

from interchange import builtins
from interchange.elements import File, Unit, UnitKind, read as read_units

from .program import (ClassItem, CodeItem, CommentItem, Declares, MethodItem, NameItem, Program, Target)
from .sources import Origin, Source, Spot

REASONS = {
    "Unfinished": "the last text has no bang behind it",
    "MissingText": "the last header has no body behind it",
    "MissingVersion": "the file doesn't begin with its version",
    "Syntax": "this is no element, or this can't stand in it",
    "BadCharacter": "this begins nothing",
    "OpenString": "a string without end",
    "OpenComment": "a comment without end",
    "BadRadix": "a digit isn't below the radix",
    "IntegerTooLarge": "an integer past 2^127",
    "FloatOutside": "a float",
}
_TARGETS = {UnitKind.INITIALIZER: Target.NAME, UnitKind.PROGRAM_INITIALIZER: Target.PROGRAM,
            UnitKind.POOL_INITIALIZER: Target.POOL_NAME}
_NAMES = {UnitKind.GLOBAL_VARIABLE: Declares.VARIABLE, UnitKind.GLOBAL_CONSTANT: Declares.CONSTANT,
          UnitKind.POOL: Declares.POOL, UnitKind.POOL_VARIABLE: Declares.VARIABLE,
          UnitKind.POOL_CONSTANT: Declares.CONSTANT}


def read(program: Program, source: Source) -> None:
    """Reads the units of a file in their order."""
    file: File = read_units(source.data, lenient=True)
    for trouble in file.troubles:
        program.report.refuse(Spot(source, trouble.place), REASONS[trouble.reason])
    classes = {unit.name for unit in file.units if unit.kind is UnitKind.CLASS}
    for unit in file.units:
        _unit(program, source, unit, classes)


def _unit(program: Program, source: Source, unit: Unit, classes: set[bytes]) -> None:
    spot = Spot(source, unit.header.text.trimmed().start)
    if unit.kind is UnitKind.VERSION:
        program.version = program.version or unit.name
        for key, value in unit.annotations:
            program.version_annotations.append((key, value))
    elif unit.kind is UnitKind.COMMENT:
        program.add(CommentItem(unit.header.text.trimmed().bytes, spot, unit.annotations))
    elif unit.kind is UnitKind.CLASS:
        names = unit.names
        program.add(ClassItem(unit.name, unit.superclass, spot, unit.indexed, names.instance, names.class_variables,
                              names.pools, names.class_instance, unit.annotations))
    elif unit.kind in _NAMES:
        program.add(NameItem(_NAMES[unit.kind], unit.name, spot, unit.pool, unit.annotations))
    elif unit.text is not None:
        _text(program, Origin(source, unit.text.text), unit, spot, classes)


def _text(program: Program, origin: Origin, unit: Unit, spot: Spot, classes: set[bytes]) -> None:
    """A method or an initializer."""
    if unit.kind not in _TARGETS:
        program.add(MethodItem(unit.name, unit.class_side, origin, unit.annotations))
        return
    target = _TARGETS[unit.kind]
    if target is Target.NAME and (unit.name in classes or unit.name in builtins.classes()):
        target = Target.CLASS
    program.add(CodeItem(target, [(b"", origin)], spot, unit.name, unit.pool, unit.annotations))

