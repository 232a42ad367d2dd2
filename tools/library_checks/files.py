"""What the library's files have to be: programs with the rest of the library, described, and used by their tests."""
from __future__ import annotations

import subprocess
from collections.abc import Iterator
from functools import cache
from pathlib import Path

from interchange.elements import METHODS, File, UnitKind, read
from linking.library import CHOSEN, FOLDER, library, wishes_of
from linking.needs import needs_of
from linking.writing import link, refusals, source

from . import Check

_DRIVEN = frozenset((b"handles:", b"setUp", b"tearDown", b"end", b"skipping:"))
"""Selectors that other files or built-in messages send, not the tests."""


def checks(command: list[str]) -> Iterator[Check]:
    """All checks of the files."""
    yield "the whole library is a program", _not_a_program(_naming_all(), [], command)
    for path in sorted(FOLDER.glob("*.sif")):
        name = str(path.relative_to(FOLDER.parent))
        yield "%s is a program" % name, _not_a_program(path.read_bytes(), [], command)
        yield from _of_file(path, name)
    for wish in wishes_of(FOLDER):
        path = FOLDER / CHOSEN / (wish + ".sif")
        name = str(path.relative_to(FOLDER.parent))
        yield "%s is a program" % name, _not_a_program(_naming_all(), [wish], command)
        yield from _of_file(path, name)


def _of_file(path: Path, name: str) -> Iterator[Check]:
    file = read(path.read_bytes())
    yield "%s is described" % name, _undescribed(file)
    yield "%s is used by tests" % name, _unused(file)


def _naming_all() -> bytes:
    """A program that names every class of the library."""
    names = b". ".join(library(FOLDER, []).classes)
    return b"Smalltalk interchangeVersion: '1.0'!\nGlobal initializer!\n%s!\n" % names


def _not_a_program(data: bytes, wishes: list[str], command: list[str]) -> str | None:
    """What keeps a file from being a program with what it needs, in which each message is answered."""
    one = source("it", data)
    refused = refusals(one)
    if refused:
        return "\n".join(refused)
    linked = link([one], library(FOLDER, wishes))
    run = subprocess.run([*command, "check"], input=linked.text, capture_output=True, check=False)
    return "\n".join([*linked.warnings, run.stderr.decode()] if run.returncode or linked.warnings else []) or None


def _undescribed(file: File) -> str | None:
    """A unit without what a reader looks for."""
    if file.units[1].kind is not UnitKind.COMMENT:
        return "no comment at the beginning"
    for unit in file.units:
        if unit.kind is UnitKind.CLASS and not unit.annotation(b"comment"):
            return "class %s has no comment" % unit.name.decode()
        if unit.kind in METHODS and not unit.annotation(b"category"):
            return "%s>>%s has no category" % (unit.name.decode(), unit.parse()[0].selector.decode())
    return None


def _unused(file: File) -> str | None:
    """A method of the file whose selector neither a test of the library sends, nor the file itself."""
    used = _sent_by(file) | _sent_by_tests() | _DRIVEN
    selectors = [unit.parse()[0].selector for unit in file.methods()]
    unused = [selector.decode() for selector in selectors if selector not in used]
    return "unused: " + " ".join(unused) if unused else None


@cache
def _sent_by_tests() -> frozenset[bytes]:
    return frozenset().union(*(_sent_by(read(path.read_bytes())) for path in (FOLDER / "tests").rglob("*.sif")))


def _sent_by(file: File) -> frozenset[bytes]:
    """What the units of a file send, or name as a symbol."""
    needs = [needs_of(unit) for unit in file.units]
    return frozenset().union(*(one.sent for one in needs), *(one.symbols for one in needs))
