"""What was read of all files: classes, methods, code and names, in the order of the files."""
from __future__ import annotations

from collections.abc import Callable
from dataclasses import dataclass, field
from enum import Enum

from interchange.places import Text

from .sources import Origin, Report, Source, Spot, shown


@dataclass(eq=False)
class ClassItem:
    """A class. Its lists of names are in the order of the file."""

    name: bytes
    superclass: bytes
    spot: Spot
    indexed: bytes = b"none"
    instance: list[bytes] = field(default_factory=list)
    class_variables: list[bytes] = field(default_factory=list)
    pools: list[bytes] = field(default_factory=list)
    class_instance: list[bytes] = field(default_factory=list)
    annotations: list[tuple[bytes, bytes]] = field(default_factory=list)

    def annotate(self, key: bytes, value: bytes) -> None:
        """Sets the annotation of a key; an empty value says nothing."""
        self.annotations = [row for row in self.annotations if row[0] != key]
        if value.strip():
            self.annotations.append((key, value))


@dataclass(eq=False)
class MethodItem:
    """A method of a class or of its class side."""

    class_name: bytes
    class_side: bool
    origin: Origin
    annotations: list[tuple[bytes, bytes]] = field(default_factory=list)
    selector: bytes = b""

    @property
    def spot(self) -> Spot:
        """Where its text begins, behind white space."""
        text = self.origin.bytes
        return self.origin.spot(len(text) - len(text.lstrip()))

    def key(self) -> tuple[bytes, bool, bytes]:
        return self.class_name, self.class_side, self.selector

    def __str__(self) -> str:
        return "%s%s>>%s" % (shown(self.class_name), " class" * self.class_side, shown(self.selector))


class Target(Enum):
    """What an initializer is of."""

    PROGRAM = "the program"
    CLASS = "a class"
    NAME = "a global variable or constant"
    POOL_NAME = "a variable or constant of a pool"


@dataclass(eq=False)
class CodeItem:
    """An initializer. `name` is its target, within `pool` where it is of a pool.

    Of a class it has several parts: code, and before it the class variable that takes its value, if one does.
    """

    target: Target
    parts: list[tuple[bytes, Origin]]
    spot: Spot
    name: bytes = b""
    pool: bytes = b""
    annotations: list[tuple[bytes, bytes]] = field(default_factory=list)


class Declares(Enum):
    """What a name item declares, in the words of its element."""

    VARIABLE = "variable"
    CONSTANT = "constant"
    POOL = "pool"


@dataclass(eq=False)
class NameItem:
    """A global, a pool, or a variable or constant of a pool."""

    declares: Declares
    name: bytes
    spot: Spot
    pool: bytes = b""
    annotations: list[tuple[bytes, bytes]] = field(default_factory=list)


@dataclass(eq=False)
class CommentItem:
    """Comments that stand by themselves, as they are written."""

    text: bytes
    spot: Spot
    annotations: list[tuple[bytes, bytes]] = field(default_factory=list)


Item = ClassItem | MethodItem | CodeItem | NameItem | CommentItem
Remark = Callable[[ClassItem], None]


@dataclass
class Program:
    """All items, and the remarks that are made on classes."""

    report: Report
    items: list[Item] = field(default_factory=list)
    remarks: list[tuple[bytes, Spot, Remark, bool]] = field(default_factory=list)
    removals: list[tuple[bytes, bool, bytes, Spot]] = field(default_factory=list)
    pool_names: set[bytes] = field(default_factory=set)
    version: bytes = b""
    version_annotations: list[tuple[bytes, bytes]] = field(default_factory=list)
    sources: list[Source] = field(default_factory=list)
    commented: set[int] = field(default_factory=set)

    def add(self, item: Item) -> None:
        self.items.append(item)

    def classes(self) -> dict[bytes, ClassItem]:
        """The classes by name; of several of one name the last one."""
        return {item.name: item for item in self.items if isinstance(item, ClassItem)}

    def methods(self) -> list[MethodItem]:
        return [item for item in self.items if isinstance(item, MethodItem)]

    def code(self) -> list[CodeItem]:
        return [item for item in self.items if isinstance(item, CodeItem)]

    def remark(self, class_name: bytes, spot: Spot, remark: Remark, brings_variables: bool = False) -> None:
        """What is said of a class that stands in some file, or should; it is heard once all files are read."""
        self.remarks.append((class_name, spot, remark, brings_variables))

    def comment(self, source: Source, text: bytes, spot: Spot) -> None:
        """Keeps the first comment of a file."""
        if source.number not in self.commented and text.strip():
            self.commented.add(source.number)
            self.add(CommentItem(b'"%s"' % text.strip().replace(b'"', b"'"), spot))

    def initialize_class(self, name: bytes, variable: bytes, origin: Origin) -> None:
        """Adds code to the initializer of a class, and the class variable that takes its value if there is one."""
        for item in self.items:
            if isinstance(item, CodeItem) and item.target is Target.CLASS and item.name == name:
                item.parts.append((variable, origin))
                return
        self.add(CodeItem(Target.CLASS, [(variable, origin)], origin.spot(), name))

    def made(self, near: Origin, text: bytes) -> Origin:
        """A text that stands in no file, with the place of one that does."""
        return Origin(near.source, Text(text, near.text.start))

    def run(self, origin: Origin) -> None:
        """Adds code that runs when it is its turn."""
        self.add(CodeItem(Target.PROGRAM, [(b"", origin)], origin.spot()))
