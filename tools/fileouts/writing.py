"""The interchange file that a program becomes."""
from __future__ import annotations

from collections.abc import Iterator

from interchange.chunks import doubled

from .additions import Row, sorted_classes
from .edits import with_line_feeds
from .program import ClassItem, CodeItem, CommentItem, Declares, Item, MethodItem, NameItem, Program, Target


def written(program: Program, texts: dict[Item, bytes], globals_wanted: list[bytes], rows: list[Row]) -> bytes:
    """The whole file. `texts` has the text of each method and initializer; `rows` are methods beside those."""
    items = _in_order(program)
    lead = next((index for index, item in enumerate(items) if not isinstance(item, CommentItem)), len(items))
    elements = [_element(b"Smalltalk interchangeVersion: " + quoted(program.version or b"1.0"))]
    elements += [*_annotations(program.version_annotations), b"\n"]
    elements += [_written(item, texts) for item in items[:lead]]
    elements += [_element(b"Global variable: " + quoted(name)) for name in globals_wanted]
    elements += [_method(name, side, text, []) for name, side, _, text in rows]
    elements += [_written(item, texts) for item in items[lead:]]
    return b"".join(elements)


def _in_order(program: Program) -> list[Item]:
    """The items in the order of the files, but each class behind its superclass."""
    classes = iter(sorted_classes(program))
    return [next(classes) if isinstance(item, ClassItem) else item for item in program.items]


def quoted(text: bytes) -> bytes:
    """A text as a string literal."""
    return b"'%s'" % text.replace(b"'", b"''")


def _element(text: bytes) -> bytes:
    return doubled(text) + b"!\n"


def _annotations(rows: list[tuple[bytes, bytes]]) -> Iterator[bytes]:
    for key, value in rows:
        yield _element(b"Annotation key: %s value: %s" % (quoted(key), quoted(with_line_feeds(value))))


def _written(item: Item, texts: dict[Item, bytes]) -> bytes:
    if isinstance(item, ClassItem):
        return _class(item)
    if isinstance(item, MethodItem):
        return _method(item.class_name, item.class_side, texts[item], item.annotations)
    if isinstance(item, CodeItem):
        return _code(item, texts[item])
    if isinstance(item, NameItem):
        return _name(item)
    return b"".join([_element(with_line_feeds(item.text)), *_annotations(item.annotations)]) + b"\n"


def _class(item: ClassItem) -> bytes:
    lists = [quoted(b" ".join(names)) for names in (
        item.instance, item.class_variables, item.pools, item.class_instance)]
    text = (b"Class named: %s superclass: %s indexedInstanceVariables: #%s\n"
            b"\tinstanceVariableNames: %s classVariableNames: %s sharedPools: %s\n"
            b"\tclassInstanceVariableNames: %s") % (quoted(item.name), quoted(item.superclass), item.indexed, *lists)
    return b"".join([_element(text), *_annotations(item.annotations)]) + b"\n"


def _method(name: bytes, class_side: bool, text: bytes, annotations: list[tuple[bytes, bytes]]) -> bytes:
    head = b"%s %s!\n" % (name, b"classMethod" if class_side else b"method")
    return b"".join([head, doubled(text), b"! !\n", *_annotations(annotations)]) + b"\n"


def _code(item: CodeItem, text: bytes) -> bytes:
    heads = {Target.PROGRAM: b"Global initializer",
             Target.POOL_NAME: b"%s initializerFor: '%s'" % (item.pool, item.name)}
    head = heads.get(item.target, b"%s initializer" % item.name)
    return b"".join([head, b"!\n", doubled(text), b"! !\n", *_annotations(item.annotations)]) + b"\n"


def _name(item: NameItem) -> bytes:
    if item.declares is Declares.POOL:
        text = b"Pool named: " + quoted(item.name)
    else:
        text = b"%s %s: %s" % (item.pool or b"Global", item.declares.value.encode(), quoted(item.name))
    return b"".join([_element(text), *_annotations(item.annotations)])
