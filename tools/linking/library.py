"""The library: the units of a folder of interchange files, by what they are for."""
from __future__ import annotations

from dataclasses import dataclass, field
from functools import cache, cached_property
from pathlib import Path

from interchange.bodies import Body, Method
from interchange.builtins import classes as built_in_classes
from interchange.elements import INITIALIZERS, METHODS, Unit, UnitKind, read

from .needs import Needs, needs_of, needs_of_tree

FOLDER = Path(__file__).resolve().parents[2] / "lib"
CHOSEN = "chosen"

Key = tuple[bytes, bool, bytes]
"""A method: its class, whether it is of the class side, its selector."""


class Unusable(Exception):
    """A file of the library that can't be used, and why."""


@dataclass(frozen=True)
class Entry:
    """A unit of the library: the file that it stands in, its bytes there, and the tree of its text."""

    unit: Unit
    file: str
    text: bytes
    tree: Method | Body | None
    key: Key | None = None

    @cached_property
    def needs(self) -> Needs:
        """What it names."""
        return needs_of(self.unit) if self.tree is None else needs_of_tree(self.tree)

    @property
    def shown(self) -> str:
        """How a report names it."""
        if self.key is None:
            return "class " + self.unit.name.decode()
        name, class_side, selector = self.key
        return "%s%s>>%s" % (name.decode(), " class" if class_side else "", selector.decode())


@dataclass(slots=True)
class Library:
    """Classes with all their units, in the order in which they may be declared, and the methods of built-in classes."""

    classes: dict[bytes, list[Entry]] = field(default_factory=dict)
    methods: dict[Key, Entry] = field(default_factory=dict)
    by_selector: dict[bytes, list[Key]] = field(default_factory=dict)
    wished_classes: list[bytes] = field(default_factory=list)
    wished_methods: list[Key] = field(default_factory=list)
    order: dict[int, int] = field(default_factory=dict)

    def place(self, entry: Entry) -> int:
        """Which place an entry has among all, in the order in which they may be declared."""
        return self.order[id(entry)]

    def add(self, entry: Entry, wished: bool) -> None:
        """Adds a unit. What is wished for stands in place of what the library has itself."""
        self.order[id(entry)] = len(self.order)
        unit = entry.unit
        if unit.kind is UnitKind.CLASS:
            self.classes[unit.name] = [entry]
            if wished:
                self.wished_classes.append(unit.name)
        elif unit.name in self.classes and (wished or self.classes[unit.name][0].file == entry.file):
            units = self.classes[unit.name]
            units[:] = [one for one in units if one.key is None or one.key != entry.key] + [entry]
        elif entry.key is not None:
            self._add_method(entry, entry.key, wished)

    def _add_method(self, entry: Entry, key: Key, wished: bool) -> None:
        self.methods[key] = entry
        keys = self.by_selector.setdefault(key[2], [])
        if key not in keys:
            keys.append(key)
        if wished:
            self.wished_methods.append(key)


def library(folder: Path, wishes: list[str]) -> Library:
    """The library of a folder, with the files of its subfolder for wishes that are named."""
    found = Library()
    for path in sorted(folder.glob("*.sif")):
        _add_file(found, path, path.name, wished=False)
    for wish in wishes:
        path = folder / CHOSEN / (wish + ".sif")
        if not path.is_file():
            raise Unusable("there is no %s/%s.sif; there are %s" % (CHOSEN, wish, ", ".join(wishes_of(folder))))
        _add_file(found, path, "%s/%s" % (CHOSEN, path.name), wished=True)
    return found


def wishes_of(folder: Path) -> list[str]:
    """What may be wished for."""
    return sorted(path.stem for path in (folder / CHOSEN).glob("*.sif"))


def _add_file(found: Library, path: Path, name: str, wished: bool) -> None:
    for entry in _entries(path, name):
        found.add(entry, wished)


@cache
def _entries(path: Path, name: str) -> tuple[Entry, ...]:
    """The units of a file that a program can take: classes, methods and initializers of classes."""
    data = path.read_bytes()
    file = read(data)
    if file.troubles:
        raise Unusable("%s isn't an interchange file: %s" % (path, file.troubles[0].reason))
    entries = []
    for unit in file.units:
        if unit.kind is UnitKind.CLASS or unit.kind is UnitKind.INITIALIZER or unit.kind in METHODS:
            tree, _ = unit.parse()
            key = (unit.name, unit.class_side, tree.selector) if isinstance(tree, Method) else None
            entries.append(Entry(unit, name, source_of(unit, data), tree, key))
    return tuple(entries)


def source_of(unit: Unit, data: bytes) -> bytes:
    """The bytes of a unit with its annotations, to its last bang."""
    text = data[unit.header.start : unit.last.end + 1].strip()
    closes = unit.kind in METHODS | INITIALIZERS and unit.last is unit.text
    return text + b" !" if closes else text


def classes_above(name: bytes, superclasses: dict[bytes, bytes | None]) -> list[bytes]:
    """A class and those above it, as far as they are known."""
    found: list[bytes] = []
    at: bytes | None = name
    while at is not None and at not in found:
        found.append(at)
        at = superclasses.get(at)
    return found


def is_built_in(name: bytes) -> bool:
    """Whether a built-in class has that name."""
    return name in built_in_classes()
