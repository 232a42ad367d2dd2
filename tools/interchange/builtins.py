"""The classes and messages that every program has, read from the one table of them, that of the crate `st_base`."""
from __future__ import annotations

import re
from functools import cache
from pathlib import Path

_TABLE = Path(__file__).resolve().parents[2] / "crates" / "st_base" / "src" / "builtins.rt"
_CONSTANT = re.compile(r"const ([A-Z_]+): u32 = (\d+);")
_CLASS = re.compile(r'BuiltInClass\("(\w+)", (?:None|Some\((\w+)\))\)')
_MESSAGE = re.compile(r'BuiltInMessage\((\w+), (Instance|Class), "((?:[^"\\]|\\.)*)"\)')

EXCEPTION_CLASSES = (b"Exception", b"Error", b"ZeroDivide", b"MessageNotUnderstood", b"Notification", b"Warning")
"""The built-in classes that may have subclasses, beside Object."""


@cache
def _table() -> tuple[dict[bytes, bytes | None], frozenset[tuple[bytes, bool, bytes]]]:
    text = _TABLE.read_text()
    numbers = {name: int(number) for name, number in _CONSTANT.findall(text)}
    rows = _CLASS.findall(text)
    names = [name.encode() for name, _ in rows]
    classes = {name: names[numbers[above]] if above else None for name, (_, above) in zip(names, rows)}
    messages = frozenset((names[numbers[row[0]]], row[1] == "Class", row[2].replace("\\\\", "\\").encode())
                         for row in _MESSAGE.findall(text))
    return classes, messages


def classes() -> dict[bytes, bytes | None]:
    """Each built-in class and its superclass, in the order of the table."""
    return _table()[0]


def messages() -> frozenset[tuple[bytes, bool, bytes]]:
    """What each built-in class answers itself: the class, whether on its class side, and the selector."""
    return _table()[1]


def may_have_subclasses(name: bytes) -> bool:
    """Whether a file may declare a class under this built-in class."""
    return name == b"Object" or name in EXCEPTION_CLASSES
