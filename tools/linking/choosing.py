"""Which units of the library a program takes.

- A class of the library is taken, with all methods of its file, where a text names it and the program doesn't declare
  that name.
- A method that the library gives another class is taken where its selector is sent, or stands as a symbol. For a class
  of the library that class must be taken. On the class side a text must name the class or one under it. Where a
  built-in class answers the selector already, as with `value:` or `+`, a text must name it so or have a literal of it.
- What a program defines itself stays: neither that method is taken, nor one of the selector for a class under it.
- What is taken may name more.
- Of a file that is wished for, everything is taken; methods of classes of the library where the class is taken.
"""
from __future__ import annotations

from dataclasses import dataclass, field

from interchange.builtins import classes as built_in_classes
from interchange.builtins import messages as built_in_messages
from interchange.elements import METHODS, File, Unit, UnitKind

from .library import Entry, Key, Library, classes_above, is_built_in
from .needs import Needs, needs_of

_DECLARING = frozenset((UnitKind.CLASS, UnitKind.GLOBAL_VARIABLE, UnitKind.GLOBAL_CONSTANT, UnitKind.POOL))
_BUILT_IN = frozenset(selector for _, _, selector in built_in_messages())
_SENT_BY_LOOPS = (b"value:", b"value:value:")
"""What built-in messages send to an object in the place of a block, though no text sends it. A class is none."""
_MADE_BY = {b"/": b"Fraction", b"->": b"Association"}
"""Classes whose objects are made by a message, without a name."""


@dataclass(slots=True)
class Program:
    """What a program has by itself: its names, its methods, its classes with their superclasses."""

    names: set[bytes] = field(default_factory=set)
    methods: set[Key] = field(default_factory=set)
    superclasses: dict[bytes, bytes | None] = field(default_factory=lambda: dict(built_in_classes()))
    variables: dict[bytes, set[bytes]] = field(default_factory=dict)


def program_of(files: list[File]) -> Program:
    """What the units of some files declare and define."""
    program = Program()
    pools: dict[bytes, set[bytes]] = {}
    units = [unit for file in files for unit in file.units]
    for unit in units:
        if unit.kind in _DECLARING:
            program.names.add(unit.name)
        if unit.kind in (UnitKind.POOL_VARIABLE, UnitKind.POOL_CONSTANT):
            pools.setdefault(unit.pool, set()).add(unit.name)
        if unit.kind is UnitKind.CLASS:
            program.superclasses.setdefault(unit.name, unit.superclass)
        if unit.kind in METHODS:
            tree, _ = unit.parse()
            program.methods.add((unit.name, unit.class_side, tree.selector))
    for unit in units:
        if unit.kind is UnitKind.CLASS:
            lists = unit.names
            own = {*lists.class_variables, *lists.instance, *lists.class_instance}
            program.variables[unit.name] = own.union(*(pools.get(pool, set()) for pool in lists.pools))
    return program


class Choice:
    """Takes of a library what a program needs."""

    def __init__(self, program: Program, library: Library) -> None:
        self.program = program
        self.library = library
        self.superclasses = dict(program.superclasses)
        for name, units in library.classes.items():
            self.superclasses.setdefault(name, units[0].unit.superclass)
        self.classes: dict[bytes, list[Entry]] = {}
        self.methods: dict[Key, Entry] = {}
        self.sent: set[bytes] = set()
        self.named: set[bytes] = set()
        self.seen: set[bytes] = set()

    def take_for(self, units: list[Unit]) -> None:
        """Takes what the units of a program need, and what is wished for."""
        for name in self.library.wished_classes:
            self._take_class(name)
        for key in self.library.wished_methods:
            self._take_method(key)
        for unit in units:
            self._need(needs_of(unit), unit.name)
        self._take_sent()

    def is_late(self, entry: Entry) -> bool:
        """Whether a unit is of a class under one that the program declares, and so stands behind the program."""
        name = entry.unit.name
        return name in self.classes and not self.program.names.isdisjoint(classes_above(name, self.superclasses))

    def answered(self) -> set[bytes]:
        """The selectors that some class of the linked program has."""
        taken = {entry.key[2] for entry in self.entries() if entry.key is not None}
        return taken.union(*({key[2] for key in keys} for keys in (self.program.methods, built_in_messages())))

    def entries(self) -> list[Entry]:
        """What was taken, in an order in which it may be declared: classes, then the rest."""
        taken = [entry for units in self.classes.values() for entry in units] + list(self.methods.values())
        return sorted(taken, key=lambda entry: (entry.unit.kind is not UnitKind.CLASS, self.library.place(entry)))

    def _need(self, needs: Needs, where: bytes) -> None:
        """Notes what the text of a unit of a class names, and takes the classes of it."""
        hidden: set[bytes] = set()
        for name in classes_above(where, self.superclasses):
            hidden |= self.program.variables.get(name, set())
        for name in needs.names - hidden:
            self.named.update(classes_above(name, self.superclasses))
            self._take_class(name)
        made = {_MADE_BY[selector] for selector in needs.sent.keys() & _MADE_BY.keys()}
        if b"Transcript" in needs.names:
            made.add(b"TranscriptWriter")
        for name in needs.literals | made:
            self.seen.update(classes_above(name, self.superclasses))
        self.sent.update(needs.sent, needs.symbols)

    def _take_class(self, name: bytes) -> None:
        if name in self.program.names or name in self.classes or name not in self.library.classes:
            return
        self.classes[name] = self.library.classes[name]
        self.named.update(classes_above(name, self.superclasses))
        for entry in self.classes[name]:
            self._need(entry.needs, name)

    def _take_method(self, key: Key) -> None:
        if key in self.methods or self._is_replaced(key):
            return
        entry = self.methods[key] = self.library.methods[key]
        self._need(entry.needs, key[0])

    def _take_sent(self) -> None:
        """Takes methods until nothing more is wanted."""
        count = -1
        while count != len(self.methods) + len(self.classes):
            count = len(self.methods) + len(self.classes)
            for selector in sorted(self.sent.union(_SENT_BY_LOOPS) & self.library.by_selector.keys()):
                for key in self.library.by_selector[selector]:
                    if self._is_wanted(key):
                        self._take_method(key)

    def _is_wanted(self, key: Key) -> bool:
        """Whether a method whose selector is sent is of use."""
        name, class_side, selector = key
        if name in self.library.classes:
            return name in self.classes
        if class_side:
            return name in self.named and selector in self.sent
        return selector not in _BUILT_IN or name in self.seen or name in self.named

    def _is_replaced(self, key: Key) -> bool:
        """Whether the program defines the method itself, or for a built-in class above."""
        name, class_side, selector = key
        return any((above, class_side, selector) in self.program.methods
                   for above in classes_above(name, self.superclasses) if is_built_in(above))
