"""The one file that a program and what it needs become."""
from __future__ import annotations

from dataclasses import dataclass

from interchange.bodies import Fault
from interchange.chunks import doubled
from interchange.elements import METHODS, File, Unit, UnitKind, read
from interchange.places import WHITE, Lines

from .choosing import Choice, program_of
from .library import Entry, Library, classes_above
from .needs import needs_of

_TEST_CASE = b"TestCase"
_TEST_SELECTORS = b"testSelectors"


@dataclass(slots=True)
class Source:
    """A file of the program: its name, its bytes and its units."""

    name: str
    data: bytes
    file: File

    def told(self, offset: int, text: str) -> str:
        """A line about a place of the file."""
        return "%s:%d:%d: %s" % (self.name, *Lines(self.data).place(offset), text)


@dataclass(slots=True)
class Linked:
    """The file, what was added of the library, the test classes that got their selectors, and warnings. `origins` are
    the offsets at which the text of each file begins: in the file that was made, and in its own."""

    text: bytes
    added: list[Entry]
    tests: list[bytes]
    warnings: list[str]
    origins: list[tuple[int, int, Source]]

    def told(self, offset: int, text: str) -> str | None:
        """A line about a place of the file that was made, by the file that it comes from; None for the library's."""
        for begin, own, one in self.origins:
            if begin <= offset <= begin + len(one.data) - own:
                return one.told(own + offset - begin, text)
        return None


def source(name: str, data: bytes) -> Source:
    """A file of the program."""
    return Source(name, data, read(data))


def refusals(one: Source) -> list[str]:
    """What is wrong with the elements and texts of a file, as lines."""
    found = [(trouble.place, trouble.reason) for trouble in one.file.troubles]
    for unit in one.file.units:
        _, faults = unit.parse()
        found.extend(_placed(unit, fault) for fault in faults[:1])
    return [one.told(place, reason) for place, reason in sorted(found)]


def _placed(unit: Unit, fault: Fault) -> tuple[int, str]:
    return unit.text.text.place(fault.at), fault.reason


def link(sources: list[Source], library: Library) -> Linked:
    """Makes one file of the files of a program, which are without refusals, and what they need of the library."""
    ordered = _in_order(sources)
    units = [unit for one in ordered for unit in one.file.units]
    choice = Choice(program_of([one.file for one in ordered]), library)
    choice.take_for(units)
    added = choice.entries()
    tests = _tests(units, choice) if _TEST_CASE in choice.classes else {}
    late = [entry for entry in added if choice.is_late(entry)]
    before = [entry for entry in added if not choice.is_late(entry)]
    text = b"\n".join([_version(ordered[0]), *_of_library(before)]) + b"\n"
    origins = []
    for one in ordered:
        begin, end = _behind_version(one)
        origins.append((len(text), begin, one))
        text += one.data[begin:end] + (b"\n" if end > begin else b"")
    text += b"".join(entry.text + b"\n" for entry in late)
    text += b"".join(_selectors_method(name, selectors) for name, selectors in tests.items())
    return Linked(text, added, list(tests), _warnings(ordered, choice), origins)


def _of_library(added: list[Entry]) -> list[bytes]:
    """What is added, between comments that say so."""
    if not added:
        return []
    files = ", ".join(sorted({entry.file for entry in added}))
    return [b'"Of the library: %s."!' % files.encode(), *(entry.text for entry in added), b'"The program."!']


def _in_order(sources: list[Source]) -> list[Source]:
    """The files, with those before each that declare superclasses of its classes; else in the order given."""
    home = {name: one for one in reversed(sources) for name in one.file.classes()}
    ordered: list[Source] = []
    begun: list[Source] = []

    def place(one: Source) -> None:
        if any(one is other for other in begun):
            return
        begun.append(one)
        for unit in one.file.classes().values():
            if unit.superclass in home:
                place(home[unit.superclass])
        ordered.append(one)

    for one in sources:
        place(one)
    return ordered


def _version(one: Source) -> bytes:
    first = one.file.units[0]
    return one.data[first.header.start : first.header.end + 1].strip()


def _behind_version(one: Source) -> tuple[int, int]:
    """From where to where a file has something behind its version element and the annotations of that one."""
    begin = one.file.units[0].last.end + 1
    rest = one.data[begin:]
    begin += len(rest) - len(rest.lstrip(WHITE))
    return begin, begin + len(rest.strip(WHITE))


def _tests(units: list[Unit], choice: Choice) -> dict[bytes, list[bytes]]:
    """The tests of each class of the program under TestCase that doesn't name them itself."""
    found: dict[bytes, list[bytes]] = {}
    for unit in units:
        if unit.kind is UnitKind.CLASS and _TEST_CASE in classes_above(unit.superclass, choice.superclasses):
            if (unit.name, True, _TEST_SELECTORS) not in choice.program.methods:
                found[unit.name] = []
    for unit in units:
        if unit.kind in METHODS and not unit.class_side and unit.name in found:
            selector = unit.parse()[0].selector
            if selector.startswith(b"test") and b":" not in selector:
                found[unit.name].append(selector)
    return found


def _selectors_method(name: bytes, selectors: list[bytes]) -> bytes:
    """The method by which a test class names its tests."""
    listed = b" ".join(b"#" + selector for selector in selectors)
    return b"%s classMethod!\ntestSelectors\n\t^#(%s)! !\n" % (name, doubled(listed))


def _warnings(sources: list[Source], choice: Choice) -> list[str]:
    """A line for each message that is sent and that nothing in the linked program answers, at its first place."""
    answered = choice.answered()
    found = []
    told: set[bytes] = set()
    for one in sources:
        for unit in one.file.units:
            for selector, at in needs_of(unit).sent.items():
                if selector not in answered and selector not in told:
                    told.add(selector)
                    text = "warning: #%s is sent, and no class here has it" % selector.decode("latin-1")
                    found.append((one, unit.text.text.place(at), text))
    return [one.told(place, text) for one, place, text in found]
