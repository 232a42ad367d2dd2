"""The ways through a file: outline, definition, references, hover, completion, renaming, folding, symbols of a folder."""
from __future__ import annotations

import os
import re
import urllib.parse
from typing import Any

from interchange import builtins
from interchange.elements import INITIALIZERS, METHODS, Unit, UnitKind, is_name
from serving import pages
from serving.buffers import Buffer
from serving.index import Index, Key, Occurrence, selector

# kinds of symbols, as the protocol numbers them
CLASS, METHOD, FIELD, CONSTRUCTOR, VARIABLE, CONSTANT, PACKAGE, EVENT = 5, 6, 8, 9, 13, 14, 4, 24
# kinds of completions
A_METHOD, A_FIELD, A_VARIABLE, A_CLASS = 2, 5, 6, 7
SELECTOR = re.compile(rb"[A-Za-z_][A-Za-z0-9_]*|(?:[A-Za-z_][A-Za-z0-9_]*:)+|[!%&*+,/<>=?@\\~|-]+")
WORD = re.compile(rb"[A-Za-z0-9_:]*\Z")
LONGEST_FILE = 16 * 1024 * 1024


def text_of(name: bytes) -> str:
    """A name as it is shown."""
    return name.decode("utf-8", "replace")


class View:
    """A buffer with its index, both at one version."""

    def __init__(self, buffer: Buffer):
        self.buffer = buffer
        self.index = Index(buffer.bytes)

    def range(self, start: int, end: int) -> dict[str, Any]:
        """The range between two bytes of the file."""
        return self.buffer.range(self.buffer.place_of_byte(start), self.buffer.place_of_byte(end))

    def offset(self, position: dict[str, Any]) -> int:
        """The byte of the file at a position."""
        return self.buffer.byte_of_place(self.buffer.place(position))

    def occurrence(self, position: dict[str, Any]) -> Occurrence | None:
        """The name or selector at a position."""
        return self.index.at(self.offset(position))

    def location(self, one: Occurrence) -> dict[str, Any]:
        """Where a name or the first part of a selector stands."""
        return {"uri": self.buffer.uri, "range": self.range(*one.spans[0])}


# outline


def category(unit: Unit) -> str:
    """The category that an annotation gives a unit."""
    return text_of(unit.annotation(b"category") or b"")


def symbol(view: View, name: str, kind: int, unit: Unit, detail: str = "") -> dict[str, Any]:
    """A unit in the outline."""
    last = unit.last or unit.header
    header = unit.header
    start = header.text.place(len(header.text.bytes) - len(header.text.bytes.lstrip()))
    return {
        "name": name or "?",
        "detail": detail,
        "kind": kind,
        "range": view.range(start, last.end),
        "selectionRange": view.range(start, header.end),
        "children": [],
    }


def method_symbol(view: View, unit: Unit) -> dict[str, Any]:
    """A method in the outline."""
    name = text_of(view.index.analysis(unit).selector)
    return symbol(view, name, CONSTRUCTOR if unit.class_side else METHOD, unit, "class" if unit.class_side else "")


def other_symbol(view: View, unit: Unit) -> dict[str, Any] | None:
    """A unit that is neither class nor method in the outline."""
    kinds = {
        UnitKind.GLOBAL_VARIABLE: VARIABLE, UnitKind.GLOBAL_CONSTANT: CONSTANT, UnitKind.POOL: PACKAGE,
        UnitKind.POOL_VARIABLE: VARIABLE, UnitKind.POOL_CONSTANT: CONSTANT,
    }
    if unit.kind in kinds:
        return symbol(view, text_of(unit.name), kinds[unit.kind], unit, text_of(unit.pool) or unit.kind.value)
    if unit.kind in INITIALIZERS:
        of = ".".join(text_of(part) for part in (unit.pool, unit.name) if part)
        return symbol(view, ("%s initializer" % of).strip(), EVENT, unit)
    return None


def grouped(view: View, methods: list[Unit]) -> list[dict[str, Any]]:
    """The methods of a class, those of one category together."""
    groups: dict[str, list[dict[str, Any]]] = {}
    for unit in methods:
        groups.setdefault(category(unit), []).append(method_symbol(view, unit))
    found = groups.pop("", [])
    for name, members in groups.items():
        first = members[0]
        found.append({**first, "name": name, "detail": "category", "kind": PACKAGE, "children": members})
    return found


def outline(view: View) -> list[dict[str, Any]]:
    """Classes with their methods by category, methods of other classes, variables and initializers."""
    methods: dict[bytes, list[Unit]] = {}
    for unit in view.index.file.methods():
        methods.setdefault(unit.name, []).append(unit)
    found = []
    for unit in view.index.units:
        if unit.kind is UnitKind.CLASS and view.index.classes.get(unit.name) is unit:
            made = symbol(view, text_of(unit.name), CLASS, unit, text_of(unit.superclass))
            made["children"] = grouped(view, methods.pop(unit.name, []))
            found.append(made)
        else:
            made = other_symbol(view, unit)
            found += [made] if made else []
    for name, members in methods.items():
        made = symbol(view, text_of(name), CLASS, members[0], "methods of this file")
        made["children"] = grouped(view, members)
        found.append(made)
    return contained(found)


def contained(symbols: list[dict[str, Any]]) -> list[dict[str, Any]]:
    """Each symbol with a range that holds those of its children, as the protocol wants it."""
    for one in symbols:
        contained(one["children"])
        ranges = [one["range"], *(child["range"] for child in one["children"])]
        one["range"] = {
            "start": min((each["start"] for each in ranges), key=lambda at: (at["line"], at["character"])),
            "end": max((each["end"] for each in ranges), key=lambda at: (at["line"], at["character"])),
        }
    return symbols


# definition and references


def definition(view: View, position: dict[str, Any]) -> list[dict[str, Any]]:
    """Where what stands here is declared or implemented."""
    one = view.occurrence(position)
    if one is None:
        return []
    role = "implements" if one.key[0] == "selector" else "declares"
    return [view.location(other) for other in view.index.by_key[one.key] if other.role == role]


def references(view: View, position: dict[str, Any], with_declaration: bool) -> list[dict[str, Any]]:
    """The senders of a selector, or the users of a name."""
    one = view.occurrence(position)
    if one is None:
        return []
    declaring = ("implements", "declares")
    return [
        view.location(other)
        for other in view.index.by_key[one.key]
        if with_declaration or other.role not in declaring
    ]


def highlights(view: View, position: dict[str, Any]) -> list[dict[str, Any]]:
    """All parts of all places of what stands here."""
    one = view.occurrence(position)
    writes = ("assigns", "declares", "implements")
    return [
        {"range": view.range(*span), "kind": 3 if other.role in writes else 2}
        for other in (view.index.by_key[one.key] if one else [])
        for span in other.spans
    ]


# hover


def comment_of(text: bytes) -> str:
    """The first comment of a method."""
    start = text.find(b'"')
    end = text.find(b'"', start + 1)
    return text_of(text[start + 1 : end]).strip() if 0 <= start < end else ""


def about_selector(view: View, name: bytes) -> str:
    """The methods of the file with a selector, and the built-in messages."""
    parts = []
    for one in view.index.implementors(name):
        unit = view.index.units[one.unit]
        side = " class" if unit.class_side else ""
        comment = comment_of(unit.text.text.bytes) if unit.text else ""
        parts.append("**%s%s** `%s`%s" % (text_of(unit.name), side, text_of(name), "\n\n" + comment if comment else ""))
    parts += [entry.shown() for entry in pages.entries().get(text_of(name), [])]
    return "\n\n---\n\n".join(parts) or "no class here answers `%s`" % text_of(name)


def about_class(view: View, name: bytes) -> str:
    """A class, its superclasses and its variables."""
    line = " < ".join(text_of(one) for one in view.index.above(name))
    unit = view.index.classes.get(name)
    if not unit:
        return "built-in class %s" % line if name in builtins.classes() else "no class %s" % text_of(name)
    comment = unit.annotation(b"comment")
    names = b" ".join(unit.names.instance)
    parts = ["class %s" % line, "instance variables: %s" % text_of(names) if names else "", text_of(comment or b"")]
    return "\n\n".join(part for part in parts if part)


def about_name(view: View, one: Occurrence) -> str:
    """What kind of name it is."""
    kind, name = str(one.key[0]), text_of(one.key[-1]) if isinstance(one.key[-1], bytes) else ""
    if kind == "local":
        uses = view.index.by_key[one.key]
        declared = next((use for use in uses if use.role == "declares"), one)
        analysis = view.index.analysis(view.index.units[declared.unit])
        return "%s `%s`" % (next((use.kind for use in analysis.uses if use.name == one.key[3] and use.kind), "name"), name)
    if kind in ("instance variable", "class instance variable", "class variable"):
        return "%s `%s` of %s" % (kind, name, text_of(one.key[1]))
    if kind == "pool variable":
        return "variable `%s` of the pool %s" % (name, text_of(one.key[1]))
    if kind == "Transcript":
        return "`Transcript`, what the program writes to"
    return {"global": "global `%s`", "pool": "pool `%s`"}.get(kind, "nothing declares `%s`") % name


def hover(view: View, position: dict[str, Any]) -> dict[str, Any] | None:
    """What there is to say of what stands here."""
    one = view.occurrence(position)
    if one is None:
        return None
    about = {"selector": about_selector, "class": about_class}.get(str(one.key[0]))
    text = about(view, one.key[1]) if about else about_name(view, one)
    return {"contents": {"kind": "markdown", "value": text}, "range": view.range(*one.spans[0])}


# completion


def locals_at(view: View, number: int, offset: int) -> list[bytes]:
    """The parameters and temporaries that are in scope at an offset of a unit's text."""
    unit = view.index.units[number]
    if unit.text is None:
        return []
    place = unit.text.text.place
    found = []
    for (start, end), names in view.index.analysis(unit).scopes:
        if place(start) <= offset <= place(end):
            found += names
    return found


def completions(view: View, position: dict[str, Any]) -> list[dict[str, Any]]:
    """The names in scope and the selectors that begin as what stands before the cursor."""
    offset = view.offset(position)
    begun = WORD.search(view.buffer.bytes[:offset])[0]
    number = view.index.unit_at(offset)
    found: dict[bytes, dict[str, Any]] = {}
    if number is not None:
        unit = view.index.units[number]
        kinds = {"class": A_CLASS, "instance variable": A_FIELD, "class instance variable": A_FIELD}
        for name in locals_at(view, number, offset):
            found[name] = {"label": text_of(name), "kind": A_VARIABLE, "detail": "in this text"}
        for name, key in view.index.seen_from(unit).all.items():
            item = {"label": text_of(name), "kind": kinds.get(str(key[0]), A_VARIABLE), "detail": str(key[0])}
            found.setdefault(name, item)
    for name in selectors(view.index):
        found.setdefault(name, {"label": text_of(name), "kind": A_METHOD, "detail": "message"})
    return [item for name, item in sorted(found.items()) if name.startswith(begun) and name != begun]


def selectors(index: Index) -> set[bytes]:
    """All selectors that some class answers, of the file and built in."""
    own = {found.selector for unit, _, found in index.texts if unit.kind in METHODS}
    return own | {name for _, _, name in builtins.messages()}


# renaming


class CantRename(Exception):
    """Why something can't get another name."""


def parts_of(name: bytes) -> list[bytes]:
    """The parts of a selector."""
    return re.findall(rb"[^:]+:", name) if name.endswith(b":") else [name]


def checked_name(view: View, one: Occurrence, name: bytes) -> list[bytes]:
    """The new parts, where what stands here may get this name."""
    key = one.key
    if key[0] == "selector":
        if any(message == key[1] for _, _, message in builtins.messages()):
            raise CantRename("%s is a built-in message" % text_of(key[1]))
        if not SELECTOR.fullmatch(name) or len(parts_of(name)) != len(one.spans) or arity(name) != arity(key[1]):
            raise CantRename("%s doesn't take as many arguments as %s" % (text_of(name), text_of(key[1])))
        if selector(name) in view.index.by_key and view.index.implementors(name):
            raise CantRename("a method here is already named %s" % text_of(name))
        return parts_of(name)
    if key[0] in ("unknown", "Transcript") or (key[0] == "class" and key[1] not in view.index.classes):
        raise CantRename("this name isn't declared in the file")
    if not is_name(name):
        raise CantRename("%s is no name" % text_of(name))
    if taken(view, key, name):
        raise CantRename("%s stands for something else there" % text_of(name))
    return [name]


def arity(name: bytes) -> int:
    """How many arguments a selector takes."""
    return name.count(b":") or (0 if re.match(rb"[A-Za-z_]", name) else 1)


def taken(view: View, key: Key, name: bytes) -> bool:
    """Whether a name already stands for something where what is renamed is used."""
    for number in {one.unit for one in view.index.by_key[key]}:
        unit = view.index.units[number]
        names = {one.key[3] for one in view.index.occurrences if one.key[0] == "local" and one.unit == number}
        if name in names or name in view.index.seen_from(unit).all:
            return True
    return False


def rename(view: View, position: dict[str, Any], name: bytes) -> dict[str, Any]:
    """The edits that give what stands here another name, everywhere in the file."""
    one = view.occurrence(position)
    if one is None:
        raise CantRename("nothing that has a name stands here")
    parts = checked_name(view, one, name)
    edits = []
    for other in view.index.by_key[one.key]:
        if other.role == "names" and len(other.spans) == 1:
            edits.append({"range": view.range(*other.spans[0]), "newText": spelled(view, other, name)})
            continue
        for span, part in zip(other.spans, parts):
            edits.append({"range": view.range(*span), "newText": text_of(part)})
    return {"changes": {view.buffer.uri: edits}}


def spelled(view: View, one: Occurrence, name: bytes) -> str:
    """A symbol with another name, in the spelling that stands there."""
    start, end = one.spans[0]
    old = view.buffer.bytes[start:end]
    return text_of((b"#'%s'" if old.startswith(b"#'") else b"#%s" if old.startswith(b"#") else b"%s") % name)


def prepared(view: View, position: dict[str, Any]) -> dict[str, Any] | None:
    """The range and the present name of what stands here, where it can be renamed."""
    one = view.occurrence(position)
    if one is None or one.key[0] in ("unknown", "Transcript"):
        return None
    name = one.key[-1]
    return {"range": view.range(*one.spans[0]), "placeholder": text_of(name) if isinstance(name, bytes) else ""}


# folding


def folds(view: View) -> list[dict[str, Any]]:
    """A fold for each unit of more than a line."""
    found = []
    for one in (unit for unit in view.index.units if unit.kind is not UnitKind.VERSION):
        made = symbol(view, "", METHOD, one)["range"]
        if made["start"]["line"] < made["end"]["line"]:
            kind = "comment" if one.kind is UnitKind.COMMENT else "region"
            found.append({"startLine": made["start"]["line"], "endLine": made["end"]["line"], "kind": kind})
    return found


# symbols of a folder


def files_in(folder: str) -> list[str]:
    """All interchange files of a folder, those in hidden folders left out."""
    found = []
    for at, folders, names in os.walk(folder):
        folders[:] = sorted(name for name in folders if not name.startswith("."))
        found += [os.path.join(at, name) for name in sorted(names) if name.endswith(".sif")]
    return found


def file_view(name: str) -> View | None:
    """The view of a file of the folder, if it can be read. Bytes that aren't UTF-8 stand for themselves."""
    try:
        if os.path.getsize(name) > LONGEST_FILE:
            return None
        with open(name, "rb") as file:
            text = file.read().decode("utf-8", "surrogateescape")
    except OSError:
        return None
    return View(Buffer("file://" + urllib.parse.quote(os.path.abspath(name)), None, text))


def flat(symbols: list[dict[str, Any]], uri: str, container: str = "") -> list[dict[str, Any]]:
    """An outline as a list."""
    found = []
    for one in symbols:
        location = {"uri": uri, "range": one["selectionRange"]}
        if one["detail"] != "category":
            found.append({"name": one["name"], "kind": one["kind"], "containerName": container, "location": location})
        found += flat(one["children"], uri, container if one["detail"] == "category" else one["name"])
    return found


def matching(symbols: list[dict[str, Any]], query: str) -> list[dict[str, Any]]:
    """The symbols whose name has the letters of a query in order."""
    letters = re.compile(".*".join(map(re.escape, query)), re.IGNORECASE)
    return [one for one in symbols if letters.search(one["name"])]
