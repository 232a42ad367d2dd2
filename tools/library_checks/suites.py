"""The library's own tests, and what those of them write that are about writing."""
from __future__ import annotations

from collections.abc import Iterator

from linking.library import CHOSEN, FOLDER, library
from testing.command import LINES
from testing.runs import Ending, FileReport, run_file

from . import Check, equal

_WRITTEN = {
    "PrintingTest>>#testTranscript": "3\n3\n3\n'a'\na\n'a'\n1\nb\n",
    "TranscriptTest>>#testTexts": "a\nb\n\nc\ndee\n",
    "TranscriptTest>>#testObjects": "'a''b'\ncd\n'e'3f\n",
    "TranscriptTest>>#testLayout": "--\n\n\n\n\n\n\t\t  \n\t\n\t",
    "SunitTest>>#testReport": "6 run, 2 passed, 2 failed, 1 error\n"
        "\tSampleTest>>#fails failed: Got 3 instead of 4.\n"
        "\tSampleTest>>#passesAgainstExpectation failed: The test passed, and it is expected to fail.\n"
        "\tSampleTest>>#errs erred: ZeroDivide: division by zero\n"
        "\tSampleTest>>#skips skipped: not today\n",
}


def checks(command: list[str]) -> Iterator[Check]:
    """A check for each test."""
    tests = FOLDER / "tests"
    for path in sorted(tests.glob("*.sif")):
        yield from _of_report(run_file(path, [], library(FOLDER, [LINES]), [*command, "run"]))
    for path in sorted((tests / CHOSEN).glob("*.sif")):
        yield from _of_report(run_file(path, [], library(FOLDER, [path.stem, LINES]), [*command, "run"]))


def _of_report(report: FileReport) -> Iterator[Check]:
    if report.trouble or not report.outcomes:
        yield report.name, report.trouble or "no tests"
    for outcome in report.outcomes:
        passed = outcome.ending is Ending.PASS
        yield outcome.name, None if passed else "%s: %s" % (outcome.ending.value, outcome.text)
        if outcome.name in _WRITTEN:
            yield equal("what %s writes" % outcome.name, outcome.output, _WRITTEN[outcome.name])
