"""What tools/test says of small programs: endings, forms, statuses."""
from __future__ import annotations

import shlex
import subprocess
import tempfile
import xml.etree.ElementTree as ElementTree
from collections.abc import Iterator
from pathlib import Path

from . import Check, equal
from .linker import CLASS, VERSION

_TEST = Path(__file__).resolve().parents[1] / "test"


def _method(name: str, selector: str, body: str) -> str:
    return "%s method!\n%s\n\t%s!\n" % (name, selector, body)


SAMPLE = VERSION + CLASS % ("SampleTest", "TestCase", "") + "".join(
    _method("SampleTest", selector, body) for selector, body in (
        ("testPass", "Transcript show: 'written'"), ("testFail", "self assert: 3 equals: 4"),
        ("testError", "3 zork"), ("testSkip", "self skip: 'not today'"), ("testLong", "1 to: 700 do: [:i | i]"),
        ("testForever", "[true] whileTrue"), ("testException", "Exception new signal: 'odd'"),
        ("testLast", "self assert: true")))
PASSING = VERSION + CLASS % ("GoodTest", "TestCase", "") + _method("GoodTest", "testPass", "self assert: true")
ABSTRACT = VERSION + CLASS % ("BaseTest", "TestCase", "") \
    + _method("BaseTest", "testMine", "self assert: self five = 5") + "BaseTest classMethod!\nisAbstract\n\t^self == BaseTest!\n" + CLASS % ("InTest", "BaseTest", "") \
    + _method("InTest", "five", "^Five") + _method("InTest", "testOther", "self assert: self five even")
FIVE = VERSION + "Global constant: 'Five'!\nFive initializer!\n5!\n"
UNDECLARED = VERSION + CLASS % ("BadTest", "TestCase", "") + _method("BadTest", "testBad", "^Zork")

FOREIGN = """'From Pharo7.0.4 of 4 April 2019'!
TestCase subclass: #SumTest
	instanceVariableNames: ''
	classVariableNames: ''
	package: 'Sums'!
!SumTest methodsFor: 'tests' stamp: 'ann 1/1/2020 10:00'!
testSum
	self assert: {1. 2} sum equals: 3! !
!SumTest methodsFor: 'tests' stamp: 'ann 1/1/2020 10:01'!
testMax
	self assert: {1. 2} max equals: 3! !
"""

_TEXT = """\
{0}/sample.sif:7:1: SampleTest>>#testFail failed: Got 3 instead of 4.
{0}/sample.sif:10:1: SampleTest>>#testError erred: MessageNotUnderstood: Integer does not understand #zork
{0}/sample.sif:13:1: SampleTest>>#testSkip skipped: not today
{0}/sample.sif:19:1: SampleTest>>#testForever erred: step limit 1000
{0}/sample.sif:22:1: SampleTest>>#testException erred: unhandled Exception: odd
3 passed, 1 failed, 3 erred, 1 skipped in 1 file
"""

_TAP = """\
TAP version 13
1..2
ok 1 - InTest>>#testMine
not ok 2 - InTest>>#testOther
  ---
  message: |
    Assertion failed
  severity: |
    failed
  at: |
    {0}/abstract.sif:14:1
  ...
"""


def checks(command: list[str]) -> Iterator[Check]:
    """All checks of the runner."""
    with tempfile.TemporaryDirectory() as folder:
        texts = {"sample": SAMPLE, "good": PASSING, "abstract": ABSTRACT, "five": FIVE, "undeclared": UNDECLARED}
        for name, text in texts.items():
            Path(folder, name + ".sif").write_text(text)
        Path(folder, "foreign").mkdir()
        Path(folder, "foreign", "sums.st").write_text(FOREIGN)
        yield from _outputs(folder, command)
        yield from _junit(folder, command)


def _ran(folder: str, command: list[str], words: list[str]) -> tuple[int, str, str]:
    """The status, output and report of the runner; a word that ends with .sif is a file of the folder."""
    words = [folder + "/" + word if word.endswith((".sif", ".xml")) else word for word in words]
    run = subprocess.run([_TEST, "--stx", shlex.join(command), *words], capture_output=True, text=True, check=False)
    return run.returncode, run.stdout, run.stderr


def _outputs(folder: str, command: list[str]) -> Iterator[Check]:
    good = "1 passed, 0 failed, 0 erred, 0 skipped in 1 file\n"
    refused = "%s/undeclared.sif:5:3: UndeclaredName\n" \
        "0 passed, 0 failed, 0 erred, 0 skipped in 1 file, 1 not run\n" % folder
    none = "%s/five.sif: no tests\n0 passed, 0 failed, 0 erred, 0 skipped in 0 files\n" % folder
    foreign = "%s/foreign: SumTest>>#testMax failed: Got 2 instead of 3.\n" \
        "1 passed, 1 failed, 0 erred, 0 skipped in 1 file\n" % folder
    for what, words, wanted in (
        ("each ending, and limits for each test alone", ["--steps", "1000", "sample.sif"], (1, _TEXT.format(folder))),
        ("a file that passes", ["good.sif"], (0, good)),
        ("inherited tests, a file in use, and TAP", ["--tap", "--use", "five.sif", "abstract.sif"],
         (1, _TAP.format(folder))),
        ("a file that is refused", ["undeclared.sif"], (1, refused)),
        ("a file without tests", ["five.sif"], (3, none)),
        ("a folder that is converted", [folder + "/foreign"], (1, foreign)),
    ):
        yield equal("test: " + what, _ran(folder, command, words), (*wanted, ""))
    yield equal("test: no words", _ran(folder, command, [])[0], 2)
    yield equal("test: a wish that isn't there", _ran(folder, command, ["--with", "none", "good.sif"])[0], 2)
    yield equal("test: a program that isn't there", _ran(folder, ["/nowhere/stx"], ["good.sif"])[0], 2)


def _junit(folder: str, command: list[str]) -> Iterator[Check]:
    _ran(folder, command, ["--steps", "1000", "--junit", "r.xml", "sample.sif"])
    suite = ElementTree.parse(folder + "/r.xml").getroot()[0]
    counts = {key: suite.get(key) for key in ("tests", "failures", "errors", "skipped")}
    yield equal("test: JUnit's counts", counts, {"tests": "8", "failures": "1", "errors": "3", "skipped": "1"})
    cases = {case.get("name"): [(part.tag, part.get("message") or part.text) for part in case] for case in suite}
    yield equal("test: JUnit's cases", [cases[name] for name in ("testPass", "testFail", "testSkip", "testLast")],
                [[("system-out", "written")], [("failure", "Got 3 instead of 4.")], [("skipped", "not today")], []])
