"""What the names of a program stand for."""
from __future__ import annotations

from collections.abc import Iterator
from dataclasses import dataclass, field
from enum import Enum

from interchange import builtins

from .library import Library
from .program import ClassItem, Declares, NameItem, Program
from .sources import Spot

RENAMED = {
    b"BlockClosure": b"Block", b"BlockContext": b"Block", b"CompiledBlock": b"Block",
    b"SmallInteger": b"Integer", b"LargePositiveInteger": b"Integer", b"LargeNegativeInteger": b"Integer",
    b"LargeInteger": b"Integer", b"LargeInt": b"Integer", b"Number": b"Integer",
    b"SequenceableCollection": b"Collection", b"ArrayedCollection": b"Collection", b"HashedCollection": b"Collection",
    b"Iterable": b"Collection", b"ByteString": b"String", b"WideString": b"String", b"ByteSymbol": b"Symbol",
    b"Behavior": b"Class", b"ClassDescription": b"Class", b"IdentityDictionary": b"Dictionary",
    b"LookupTable": b"Dictionary", b"LookupTbl": b"Dictionary", b"IdentitySet": b"Set",
    b"TextCollector": b"TranscriptWriter", b"ThreadSafeTranscript": b"TranscriptWriter",
    b"TranscriptStream": b"TranscriptWriter",
}
"""Names that other systems have for built-in classes."""

AS_OBJECT = frozenset((b"nil", b"ProtoObject", b"Model"))
"""Superclasses for which Object stands in."""


class Stands(Enum):
    """What may be done with a name."""

    ASSIGNABLE = "a variable"
    FIXED = "a constant, a class or the like"


@dataclass
class Names:
    """The names that a whole program declares."""

    program: Program
    library: Library
    classes: dict[bytes, ClassItem] = field(default_factory=dict)
    globals: dict[bytes, Stands] = field(default_factory=dict)
    pools: dict[bytes, dict[bytes, Stands]] = field(default_factory=dict)
    fresh: dict[bytes, Spot] = field(default_factory=dict)

    def gather(self) -> None:
        """Takes the classes, globals and pools of the program."""
        self.classes = self.program.classes()
        for item in self.program.items:
            if isinstance(item, NameItem):
                self._gather(item)

    def _gather(self, item: NameItem) -> None:
        stands = Stands.FIXED if item.declares is Declares.CONSTANT else Stands.ASSIGNABLE
        if item.declares is Declares.POOL:
            self.pools.setdefault(item.name, {})
        elif item.pool:
            self.pools.setdefault(item.pool, {}).setdefault(item.name, stands)
        else:
            self.globals.setdefault(item.name, stands)

    def is_class(self, name: bytes) -> bool:
        return name in self.classes or name in self.library.classes or name in builtins.classes()

    def real(self, name: bytes) -> bytes:
        """The built-in class that another system calls by this name, or else the name itself."""
        return name if self.is_class(name) or name in self.globals else RENAMED.get(name, name)

    def chain(self, name: bytes) -> Iterator[ClassItem]:
        """A class of the files and its superclasses in the files and the library."""
        seen: set[bytes] = set()
        while name not in seen:
            seen.add(name)
            if name in self.classes:
                item = self.classes[name]
            elif name in self.library.classes and name not in builtins.classes():
                item = self._of_library(name)
            else:
                return
            yield item
            name = item.superclass

    def _of_library(self, name: bytes) -> ClassItem:
        unit = self.library.classes[name]
        lists = unit.names
        return ClassItem(name, unit.superclass, None, unit.indexed, lists.instance, lists.class_variables, lists.pools,
                         lists.class_instance)

    def superclasses(self, name: bytes) -> list[bytes]:
        """The names of all its superclasses, from the nearest one."""
        found = [item.superclass for item in self.chain(name)]
        above = found[-1] if found else builtins.classes().get(name)
        while builtins.classes().get(above):
            above = builtins.classes()[above]
            found.append(above)
        return found

    def find(self, class_name: bytes, class_side: bool, name: bytes) -> Stands | None:
        """What a name outside of all blocks and temporaries stands for in a method."""
        chain = list(self.chain(class_name))
        if any(name in (item.class_instance if class_side else item.instance) for item in chain):
            return Stands.ASSIGNABLE
        for item in chain:
            if name in item.class_variables:
                return Stands.ASSIGNABLE
            for pool in item.pools:
                if name in self.pools.get(pool, {}):
                    return self.pools[pool][name]
        if self.is_class(name) or name == b"Transcript":
            return Stands.FIXED
        if name in self.globals:
            return self.globals[name]
        return Stands.ASSIGNABLE if name in self.library.names else None
