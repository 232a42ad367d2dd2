"""Runs of a test program, and what became of each test.

All tests of a file run one after the other. Where a limit or an exception that nothing handles ends the run, that is
how the test ended that was running then, and another run goes on behind it. Where that test wasn't the first of its
run, it gets a run that begins with it, since the tests before it have used up of the limits.
"""
from __future__ import annotations

import re
import subprocess
from dataclasses import dataclass, field
from enum import Enum
from pathlib import Path

from linking.library import Library

from .programs import Refused, TestProgram, test_program

_LINE = re.compile(rb"\x1etest (begin|pass|fail|error|skip|end)(?: ([^\n]*))?\n")
_REFUSED = re.compile(r"stx: refused element (\d+) byte (\d+) (\w+)\n")


class NoProgram(Exception):
    """There is no `stx` to run tests with."""


class Ending(Enum):
    """How a test ends."""

    PASS = "passed"
    FAIL = "failed"
    ERROR = "erred"
    SKIP = "skipped"


_ENDINGS = {b"pass": Ending.PASS, b"fail": Ending.FAIL, b"error": Ending.ERROR, b"skip": Ending.SKIP}


@dataclass(slots=True)
class Outcome:
    """What became of a test: its class and selector, its ending, the text of that, and what it wrote itself."""

    class_name: str
    selector: str
    ending: Ending
    text: str = ""
    output: str = ""
    place: tuple[int, int] | None = None

    @property
    def name(self) -> str:
        """The test as SUnit names it."""
        return "%s>>#%s" % (self.class_name, self.selector)


@dataclass(slots=True)
class FileReport:
    """The tests of a file, and the lines of what kept it from being run."""

    name: str
    outcomes: list[Outcome] = field(default_factory=list)
    trouble: str = ""
    has_tests: bool = True

    def count(self, ending: Ending) -> int:
        """How many tests ended so."""
        return sum(outcome.ending is ending for outcome in self.outcomes)


@dataclass(slots=True)
class Run:
    """What a run showed: the tests that ended, the one that was running when it was over, and whether it ended well."""

    outcomes: list[Outcome]
    running: Outcome | None
    report: str
    finished: bool


def run_file(path: Path, uses: list[Path], library: Library, command: list[str]) -> FileReport:
    """Runs the tests of a file. The command is that of `stx run` with its limits."""
    report = FileReport(str(path))
    try:
        program = test_program(path, uses, library)
        if program is None:
            report.has_tests = False
        else:
            report.outcomes = _outcomes(program, command)
    except (OSError, Refused) as error:
        report.trouble = str(error)
    return report


def _outcomes(program: TestProgram, command: list[str]) -> list[Outcome]:
    """What became of all tests, in as many runs as that takes."""
    found: list[Outcome] = []
    while True:
        run = _run(program, len(found), command)
        found += run.outcomes
        if run.finished:
            break
        if run.running is None:
            raise Refused("%s: %s" % (program.file.name, run.report.strip()))
        if not run.outcomes:
            run.running.text = run.report.removeprefix("stx: ").strip()
            found.append(run.running)
    for outcome in found:
        outcome.place = program.places.get((outcome.class_name, outcome.selector))
    return found


def _run(program: TestProgram, skip: int, command: list[str]) -> Run:
    """Runs the program, but for so many tests at its beginning."""
    try:
        done = subprocess.run(command, input=program.text(skip), capture_output=True, check=False)
    except OSError as error:
        raise NoProgram("%s can't be run: %s" % (command[0], error.strerror)) from error
    report = done.stderr.decode("latin-1")
    refused = _REFUSED.fullmatch(report)
    if refused:
        raise Refused(program.told(int(refused[1]), int(refused[2]), refused[3]) or program.file.name + ": " + report)
    outcomes, running, finished = _read(done.stdout)
    return Run(outcomes, running, report or "status %d" % done.returncode, finished)


def _read(output: bytes) -> tuple[list[Outcome], Outcome | None, bool]:
    """The tests that ended, the one that didn't, and whether the last line was there."""
    outcomes: list[Outcome] = []
    running: Outcome | None = None
    finished = False
    at = 0
    while line := _LINE.search(output, at):
        before, at = output[at : line.start()], line.end()
        word, rest = line[1], line[2] or b""
        if word == b"begin":
            class_name, selector = rest.decode("latin-1").split(" ")
            running = Outcome(class_name, selector, Ending.ERROR)
        elif word == b"end":
            finished = True
        elif running is not None:
            running.output = before.decode("latin-1")
            running.ending = _ENDINGS[word]
            if rest:
                running.text = output[at : at + int(rest)].decode("latin-1")
                at += int(rest)
            outcomes.append(running)
            running = None
    if running is not None:
        running.output = output[at:].decode("latin-1")
    return outcomes, running, finished
