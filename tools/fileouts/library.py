"""The library in the language: what its files declare, so that a program may use it."""
from __future__ import annotations

from dataclasses import dataclass, field
from functools import cache
from pathlib import Path

from interchange.elements import METHODS, File, Unit, UnitKind, read

FOLDER = Path(__file__).resolve().parents[2] / "lib"


@dataclass
class Library:
    """The classes, names and methods of all files of the library."""

    classes: dict[bytes, Unit] = field(default_factory=dict)
    names: set[bytes] = field(default_factory=set)
    methods: set[tuple[bytes, bool, bytes]] = field(default_factory=set)

    @property
    def selectors(self) -> set[bytes]:
        return {selector for _, _, selector in self.methods}

    def take(self, file: File) -> None:
        """Takes what a file declares."""
        self.classes.update(file.classes())
        for unit in file.units:
            if unit.kind in (UnitKind.GLOBAL_VARIABLE, UnitKind.GLOBAL_CONSTANT):
                self.names.add(unit.name)
            elif unit.kind in METHODS and unit.text is not None:
                method, _ = unit.parse()
                self.methods.add((unit.name, unit.class_side, method.selector))


@cache
def load(folder: Path = FOLDER) -> Library:
    """The library of a folder, empty where there is none."""
    library = Library()
    for path in sorted(folder.glob("*.sif")):
        library.take(read(path.read_bytes()))
    return library
