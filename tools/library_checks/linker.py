"""What tools/link makes of small programs."""
from __future__ import annotations

import subprocess
import tempfile
from collections.abc import Iterator
from dataclasses import dataclass
from pathlib import Path

from linking.library import FOLDER, library
from linking.writing import Linked, link, source

from . import Check, equal

VERSION = "Smalltalk interchangeVersion: '1.0'!\n"
CLASS = ("Class named: '%s' superclass: '%s' indexedInstanceVariables: #none instanceVariableNames: ''"
         " classVariableNames: '%s' sharedPools: '' classInstanceVariableNames: ''!\n")
_LINK = Path(__file__).resolve().parents[1] / "link"


@dataclass(frozen=True)
class Case:
    """A program, what is added to it, what it is warned of, and what it then writes."""

    what: str
    text: str
    added: tuple[str, ...] = ()
    warnings: tuple[str, ...] = ()
    writes: str = ""
    wishes: tuple[str, ...] = ()


def program(body: str) -> str:
    """A program of one initializer."""
    return VERSION + "Global initializer!\n" + body + "!\n"


CASES = (
    Case("nothing is added where nothing is wanted", program("Transcript show: 3 printString"), writes="3"),
    Case("a literal alone wants nothing", program("'ab' do: [:each | Transcript show: (each = $b) printString]"),
         writes="falsetrue"),
    Case("a message that is sent", program("Transcript show: #(1 2) sum printString"),
         ("Collection>>sum",), writes="3"),
    Case("what is added may need more", program("Transcript show: #(1 2) average printString"),
         ("Collection>>sum", "Collection>>average"), writes="3/2"),
    Case("a symbol that may be sent", program("Transcript show: (3 perform: #squared) printString"),
         ("Symbol>>value:", "Symbol>>value:value:", "Integer>>squared", "Fraction>>squared"), writes="9"),
    Case("symbols in the place of blocks", program("Transcript show: (#(1 2) inject: 0 into: #+) printString"),
         ("Symbol>>value:", "Symbol>>value:value:"), writes="3"),
    Case("the program's own method stays",
         VERSION + "Collection method!\nsum\n\t^7!\nGlobal initializer!\nTranscript show: #(1 2) sum printString!\n",
         writes="7"),
    Case("nor is one taken for a class under it",
         VERSION + "Collection method!\nsorted: aBlock\n\t^7!\nGlobal initializer!\n"
         "Transcript show: ('ab' sorted: [:a :b | true]) printString!\n", writes="7"),
    Case("the program's own class stays",
         VERSION + CLASS % ("Bag", "Object", "") + "Bag classMethod!\nnew\n\t^3!\n"
         "Global initializer!\nTranscript show: Bag new printString!\n", writes="3"),
    Case("a class under one of the program's stands behind it",
         VERSION + CLASS % ("NamedError", "Error", "") + "Global initializer!\n"
         "[ValueNotFound new signal: 'no'] on: NamedError do: [:e | Transcript show: e messageText]!\n",
         ("class NotFound", "class ValueNotFound", "NotFound class>>text"), writes="no"),
    Case("a class variable of that name", VERSION + CLASS % ("A", "Object", "Bag") + "A method!\nbag\n\t^Bag!\n"),
    Case("a temporary of that name", program("| Bag | Bag := 3. Transcript show: Bag printString"), writes="3"),
    Case("a method of the class side wants the class", program("Transcript show: (Set new: 5) size printString"),
         ("Set class>>new:",), writes="0"),
    Case("and a class without its name has none", program("Transcript show: (Array new: 5) size printString"),
         writes="5"),
    Case("a message that nothing has", program("3 zork"),
         warnings=("F:3:3: warning: #zork is sent, and no class here has it",)),
    Case("a message is warned of once", program("[3 zork. 4 zork] on: Error do: [:e | e return: nil]"),
         warnings=("F:3:4: warning: #zork is sent, and no class here has it",)),
    Case("what is wished for", program("Transcript show: (1 to: 2) = (1 to: 2)"), wishes=("values",),
         added=("Object>>value", "Character>>value")),
)


def checks(command: list[str]) -> Iterator[Check]:
    """All checks of the linker."""
    for case in CASES:
        yield from _of_case(case, command)
    yield from _several_files()
    yield from _command_line()


def _linked(texts: dict[str, str], wishes: tuple[str, ...] = ()) -> Linked:
    return link([source(name, text.encode()) for name, text in texts.items()], library(FOLDER, list(wishes)))


def _of_case(case: Case, command: list[str]) -> Iterator[Check]:
    linked = _linked({"F": case.text}, case.wishes)
    added = tuple(entry.shown for entry in linked.added)
    yield equal("link: %s: what is added" % case.what, added, case.added)
    yield equal("link: %s: warnings" % case.what, tuple(linked.warnings), case.warnings)
    again = _linked({"F": linked.text.decode()})
    yield equal("link: %s: linked again it is the same" % case.what, again.text, linked.text)
    if case.writes:
        run = subprocess.run([*command, "run"], input=linked.text, capture_output=True, check=False)
        written = (run.stdout.decode(), run.stderr.decode())
        yield equal("link: %s: what it writes" % case.what, written, (case.writes, ""))


def _several_files() -> Iterator[Check]:
    """Files are put in an order in which their classes may stand; places are those of the files."""
    below = VERSION + CLASS % ("B", "A", "") + "B method!\nb\n\t^zork!\n"
    above = VERSION + CLASS % ("A", "Object", "")
    linked = _linked({"below": below, "above": above})
    yield equal("link: superclasses stand before", linked.text.decode(), above + below[len(VERSION):])
    at = linked.text.index(b"zork")
    yield equal("link: a place of a file", linked.told(at, "here"), "below:5:3: here")
    yield equal("link: a place of none", linked.told(0, "here"), None)
    methods = "".join("T method!\n%s\n\t^3!\n" % pattern for pattern in ("testA", "tests: x", "other"))
    test = VERSION + CLASS % ("T", "TestCase", "") + methods
    yield equal("link: the tests of a class", _linked({"F": test}).text.decode().endswith(
        "T classMethod!\ntestSelectors\n\t^#(#testA)! !\n"), True)


def _command_line() -> Iterator[Check]:
    """Statuses and reports of the command."""
    with tempfile.TemporaryDirectory() as folder:
        bad = Path(folder, "bad.sif")
        bad.write_text(VERSION + "Global initializer!\n3 +!\nGlobal zork!\n")
        for what, words, wanted in (
            ("faults of a file", [str(bad)], (1, "", "%s:3:4: Syntax\n%s:4:8: Syntax\n" % (bad, bad))),
            ("a file that isn't there", [folder + "/none"], (2, "", None)),
            ("a wish that isn't there", ["--with", "none", str(bad)], (2, "", None)),
        ):
            run = subprocess.run([_LINK, *words], capture_output=True, text=True, check=False)
            report = wanted[2] if wanted[2] is not None else run.stderr
            yield equal("link: " + what, (run.returncode, run.stdout, run.stderr), (*wanted[:2], report))
