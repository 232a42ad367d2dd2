"""The program that runs the tests of a file: the file, what it needs of the library, and an initializer."""
from __future__ import annotations

import subprocess
from dataclasses import dataclass
from functools import cached_property
from pathlib import Path

from interchange.chunks import chunks
from interchange.elements import UnitKind
from interchange.places import Lines
from linking.library import Library, classes_above
from linking.writing import Linked, Source, link, refusals, source

TOOLS = Path(__file__).resolve().parents[1]
_TEST_CASE = b"TestCase"


class Refused(Exception):
    """A file that isn't a program, and the lines that say why."""


@dataclass
class TestProgram:
    """What was linked, and the classes of its tests."""

    linked: Linked
    file: Source
    classes: list[bytes]

    def text(self, skip: int) -> bytes:
        """The program that runs the tests but for so many at the beginning."""
        lines = [b"Global initializer!", b"| lines |", b"lines := TestLines skipping: %d." % skip]
        lines += [b"%s suite run: lines." % name for name in self.classes]
        return self.linked.text + b"\n".join(lines) + b"\nlines end! !\n"

    @cached_property
    def places(self) -> dict[tuple[str, str], tuple[int, int]]:
        """Line and column of each method of the file but those of class sides, by class and selector. None are told of
        what was converted."""
        if self.file.name.endswith(", converted"):
            return {}
        lines = Lines(self.file.data)
        return {(unit.name.decode(), unit.parse()[0].selector.decode()): lines.place(unit.text.text.trimmed().start)
                for unit in self.file.file.methods() if not unit.class_side}

    def told(self, element: int, byte: int, reason: str) -> str | None:
        """A refusal of the program as a line about a file, None where it speaks of no file of the program."""
        for chunk in chunks(self.linked.text):
            if chunk.number == element and not chunk.blank:
                text = chunk.text.trimmed() if byte == 0 else chunk.text
                return self.linked.told(text.place(byte), reason)
        return None


def is_interchange(data: bytes) -> bool:
    """Whether a file begins as interchange files do."""
    return data.lstrip(b"\t\n\f\r ").startswith(b"Smalltalk interchangeVersion:")


def interchange_of(path: Path) -> bytes:
    """The bytes of an interchange file, or what the converter makes of another file or a folder."""
    data = b"" if path.is_dir() else path.read_bytes()
    if is_interchange(data):
        return data
    run = subprocess.run([TOOLS / "convert", path], capture_output=True, check=False)
    if run.returncode:
        raise Refused(run.stderr.decode("utf-8", "replace").rstrip("\n"))
    return run.stdout


def _source_of(path: Path) -> Source:
    """A file of the program. Places in what was converted aren't those of the file, and say so."""
    data = interchange_of(path)
    is_own = path.is_file() and path.read_bytes() == data
    return source(str(path) if is_own else "%s, converted" % path, data)


def test_program(path: Path, uses: list[Path], library: Library) -> TestProgram | None:
    """The program for the tests of a file, with the files that it is used with; None where it has no tests."""
    sources = [_source_of(one) for one in (*uses, path)]
    refused = [line for one in sources for line in refusals(one)]
    if refused:
        raise Refused("\n".join(refused))
    superclasses = {name: unit.superclass for one in sources for name, unit in one.file.classes().items()}
    classes = [unit.name for unit in sources[-1].file.units
               if unit.kind is UnitKind.CLASS and _TEST_CASE in classes_above(unit.superclass, superclasses)]
    if not classes:
        return None
    return TestProgram(link(sources, library), sources[-1], classes)
