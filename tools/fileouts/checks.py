"""The program as a whole: remarks on classes, double definitions, superclasses, and what is built in."""
from __future__ import annotations

from interchange import builtins
from interchange.bodies import Body, Name, Parser, Variable, parts

from .code import nested_names
from .names import AS_OBJECT, Names, Stands
from .program import ClassItem, Declares, MethodItem, NameItem, Program, Target
from .sources import Report, shown


def settle_classes(program: Program, names: Names) -> None:
    """Settles the classes and names, before any code is looked at."""
    report = program.report
    _last_classes(program, report)
    names.gather()
    _hear_remarks(program, names)
    for item in list(names.classes.values()):
        _superclass(item, names, report)
    for item in names.classes.values():
        _circle(item, names, report)
        _lists(item, names, report)
    _single_names(program, names)
    _put_names(program, names)


def _last_classes(program: Program, report: Report) -> None:
    """Of several definitions of a class the last one counts."""
    last = program.classes()
    for item in program.items:
        if isinstance(item, ClassItem) and last[item.name] is not item:
            report.warn(last[item.name].spot, "%s is defined again, and only this counts" % shown(item.name))
    program.items = [item for item in program.items
                     if not isinstance(item, ClassItem) or last[item.name] is item]


def _hear_remarks(program: Program, names: Names) -> None:
    for name, spot, remark, brings_variables in program.remarks:
        if name in names.classes:
            remark(names.classes[name])
        elif not names.is_class(names.real(name)):
            program.report.refuse(spot, "%s is defined nowhere" % shown(name))
        elif brings_variables:
            program.report.refuse(spot, "%s isn't of these files, and gets no further variables" % shown(name))


def _superclass(item: ClassItem, names: Names, report: Report) -> None:
    if item.name in builtins.classes() or item.name == b"Transcript":
        report.refuse(item.spot, "%s is built in" % shown(item.name))
    if item.superclass in AS_OBJECT and item.superclass not in names.classes:
        report.warn(item.spot, "Object stands in for %s" % shown(item.superclass), "superclass", item.superclass)
        item.superclass = b"Object"
    above = names.real(item.superclass)
    if above in names.classes or above in names.library.classes or builtins.may_have_subclasses(above):
        item.superclass = above
    elif above in builtins.classes():
        report.refuse(item.spot, "there are no subclasses of %s here" % shown(above))
    else:
        report.refuse(item.spot, "the superclass %s is defined nowhere" % shown(above))


def _circle(item: ClassItem, names: Names, report: Report) -> None:
    """A class that is its own superclass, over others or not, is put under Object and refused."""
    seen = {item.name}
    above = item.superclass
    while above in names.classes and above not in seen:
        seen.add(above)
        above = names.classes[above].superclass
    if above == item.name:
        report.refuse(item.spot, "%s is its own superclass" % shown(item.name))
        item.superclass = b"Object"


def _lists(item: ClassItem, names: Names, report: Report) -> None:
    """Names that stand twice in the lists of a class or are inherited, pools, and the way of indexing."""
    above = list(names.chain(item.superclass))
    for which in ("instance", "class_variables", "pools", "class_instance"):
        listed = getattr(item, which)
        inherited = [name for upper in above for name in getattr(upper, which)] if "instance" in which else []
        for name in dict.fromkeys(name for name in listed if listed.count(name) > 1 or name in inherited):
            report.refuse(item.spot, "%s of %s is there twice" % (shown(name), shown(item.name)))
    for pool in item.pools:
        if pool not in names.pools:
            report.refuse(item.spot, "the pool %s is declared nowhere" % shown(pool))
    ways = [upper.indexed for upper in above if upper.indexed != b"none"]
    if item.indexed != b"none" and ways and ways[0] != item.indexed:
        report.refuse(item.spot, "%s is indexed in another way than its superclass" % shown(item.name))


def _single_names(program: Program, names: Names) -> None:
    """Drops a second declaration of a global or pool, and refuses one that has the name of a class."""
    seen: set[tuple[bytes, bytes]] = set()
    kept = []
    for item in program.items:
        if isinstance(item, NameItem):
            key = (item.pool, item.name)
            if not item.pool and (names.is_class(item.name) and item.name not in names.library.classes):
                program.report.refuse(item.spot, "%s is the name of a class" % shown(item.name))
            if key in seen:
                continue
            if item.pool and item.pool not in names.pools:
                program.report.refuse(item.spot, "the pool %s is declared nowhere" % shown(item.pool))
            seen.add(key)
        kept.append(item)
    for item in (item for item in kept if isinstance(item, NameItem) and item.pool):
        if not any(isinstance(other, NameItem) and other.declares is Declares.POOL and other.name == item.pool
                   for other in kept):
            program.report.refuse(item.spot, "the pool %s is declared nowhere" % shown(item.pool))
    program.items = kept


def _put_names(program: Program, names: Names) -> None:
    """Declares the globals that some text puts in place with `Smalltalk at: #X put:`."""
    for item in [*program.methods(), *program.code()]:
        origins = [item.origin] if isinstance(item, MethodItem) else [origin for _, origin in item.parts]
        for origin in origins:
            if b"Smalltalk" not in origin.bytes:
                continue
            parser = Parser(origin.bytes, origin.source.tool.dialect)
            body = parser.method().body if isinstance(item, MethodItem) else parser.body()
            for name in sorted(nested_names(body)):
                if name not in names.globals and name not in names.pools and not names.is_class(name):
                    names.globals[name] = Stands.ASSIGNABLE
                    names.fresh[name] = origin.spot()


def shared_names(program: Program) -> dict[int, set[bytes]]:
    """Of each file the temporaries of its statements that other statements of the file use as well.

    In a file of GNU Smalltalk they last to its end.
    """
    found: dict[int, set[bytes]] = {}
    by_source: dict[int, list[tuple[set[bytes], set[bytes]]]] = {}
    for item in program.code():
        source = item.spot.source
        if item.target is Target.PROGRAM and source.tool.name in ("gst", "unknown"):
            body = Parser(item.parts[0][1].bytes, source.tool.dialect).body()
            declared = {name.text for name in body.temporaries}
            by_source.setdefault(source.number, []).append((declared, used_names(body)))
    for number, rows in by_source.items():
        found[number] = {name for index, (declared, _) in enumerate(rows) for name in declared
                         if any(name in used for other, (_, used) in enumerate(rows) if other != index)}
    return found


def used_names(body: Body) -> set[bytes]:
    """All names that stand in a body as values or targets."""
    found: set[bytes] = set()
    waiting: list[object] = [body]
    while waiting:
        node = waiting.pop()
        waiting.extend(parts(node))
        if isinstance(node, Variable):
            found.add(node.text)
        found.update(target.text for target in getattr(node, "targets", ()) if isinstance(target, Name))
    return found


def settle_methods(program: Program, names: Names) -> None:
    """Settles whose methods there are, once each has its selector."""
    report = program.report
    for item in program.methods():
        _owner(item, names, report)
    last = {item.key(): item for item in program.methods()}
    for item in program.methods():
        if last[item.key()] is not item and item.selector:
            report.warn(last[item.key()].spot, "%s is defined again, and only this counts" % item)
    removed = _removed(program, last)
    program.items = [item for item in program.items if not isinstance(item, MethodItem)
                     or (last[item.key()] is item and item.key() not in removed)]
    for item in program.methods():
        if item.key() in builtins.messages():
            report.refuse(item.spot, "%s is built in and can't be replaced" % item)


def _owner(item: MethodItem, names: Names, report: Report) -> None:
    real = names.real(item.class_name)
    if real != item.class_name:
        report.warn(item.spot, "%s is %s here" % (shown(item.class_name), shown(real)), "renamed", item.class_name)
        item.class_name = real
    if not names.is_class(real):
        report.refuse(item.spot, "%s is defined nowhere" % shown(real))


def _removed(program: Program, last: dict[tuple[bytes, bool, bytes], MethodItem]) -> set[tuple[bytes, bool, bytes]]:
    """The methods that some file removes, where they stood before that."""
    removed = set()
    for name, side, selector, spot in program.removals:
        item = last.get((name, side, selector))
        if item and (item.spot.source.number, item.spot.offset) < (spot.source.number, spot.offset):
            program.report.warn(spot, "%s is taken out" % item)
            removed.add(item.key())
    return removed


def settle_code(program: Program, names: Names) -> None:
    """Settles of what the initializers are."""
    seen: set[tuple[bytes, bytes]] = set()
    for item in program.code():
        key = (item.pool, item.name)
        if item.target is Target.PROGRAM:
            continue
        if key in seen:
            program.report.refuse(item.spot, "%s has an initializer already" % shown(item.name))
        seen.add(key)
        known = item.name in names.pools.get(item.pool, {}) if item.pool else (
            names.is_class(item.name) or item.name in names.globals)
        if not known:
            program.report.refuse(item.spot, "%s is declared nowhere" % shown(item.name))
