"""FileTree and Cypress folders: a folder for each class, a file for each method."""
from __future__ import annotations

import json
from collections.abc import Callable
from pathlib import Path

from .definitions import is_good_name
from .program import ClassItem, MethodItem, Program
from .sources import Origin, Source, Spot

_TYPES = {"normal": b"none", "variable": b"object", "bytes": b"byte"}
_LISTS = {"instvars": "instance", "classvars": "class_variables", "pools": "pools", "classinstvars": "class_instance"}

Opens = Callable[[Path], Source | None]


def read(program: Program, folder: Path, opens: Opens) -> None:
    """Reads the folder of a class (`X.class`) or of an extension (`X.extension`)."""
    name = folder.name.rpartition(".")[0].encode()
    if folder.suffix == ".class":
        source = opens(folder / "properties.json")
        if source is None:
            return
        name = _class(program, source, folder, opens) or name
    for side, class_side in (("instance", False), ("class", True)):
        for path in sorted((folder / side).glob("*.st")):
            source = opens(path)
            if source is not None:
                _method(program, source, name, class_side)


def _class(program: Program, source: Source, folder: Path, opens: Opens) -> bytes | None:
    spot = Spot(source, 0)
    try:
        says = json.loads(source.data)
    except (ValueError, RecursionError) as error:
        at = len(error.doc[: error.pos].encode()) if isinstance(error, json.JSONDecodeError) else 0
        program.report.refuse(Spot(source, at), "this is no JSON")
        return None
    if not isinstance(says, dict) or not isinstance(says.get("name"), str):
        program.report.refuse(spot, "the name is missing")
        return None
    above = says.get("super")
    item = ClassItem(says["name"].encode(), above.encode() if isinstance(above, str) else b"nil", spot)
    kind = says.get("type", "normal")
    if not isinstance(kind, str) or kind not in _TYPES:
        program.report.refuse(spot, "%s is a kind of class that isn't here" % kind)
    else:
        item.indexed = _TYPES[kind]
    for key, which in _LISTS.items():
        _list(program, item, which, says.get(key), spot)
    if says.get("traitcomposition") not in (None, "", "{}"):
        program.report.refuse(spot, "traits aren't here")
    if isinstance(says.get("category"), str):
        item.annotate(b"category", says["category"].encode())
    readme = folder / "README.md"
    comment = opens(readme) if readme.is_file() else None
    if comment is not None:
        item.annotate(b"comment", comment.data.strip())
    program.add(item)
    return item.name


def _list(program: Program, item: ClassItem, which: str, names: object, spot: Spot) -> None:
    listed = names if isinstance(names, list) else []
    texts = [name.encode() if isinstance(name, str) else b"?" for name in listed]
    setattr(item, which, [name for name in texts if is_good_name(program.report, name, spot)])


def _method(program: Program, source: Source, name: bytes, class_side: bool) -> None:
    """A method's file: its category on the first line, and behind that the method."""
    text = source.whole()
    end = min((at for at in (text.bytes.find(b"\n"), text.bytes.find(b"\r")) if at >= 0), default=len(text.bytes))
    item = MethodItem(name, class_side, Origin(source, text.part(end, len(text.bytes)).trimmed()))
    category = text.bytes[:end].strip()
    if category:
        item.annotations.append((b"category", category))
    program.add(item)
