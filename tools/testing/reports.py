"""What is shown of tests: lines for people, TAP, and JUnit's XML."""
from __future__ import annotations

import re
from xml.sax.saxutils import escape, quoteattr

from .runs import Ending, FileReport, Outcome

_NO_XML = re.compile("[^\t\n\r\x20-\x7e\x85\xa0-\uffff]")


def where(report: FileReport, outcome: Outcome) -> str:
    """The place of a test's method, as editors read it, or the file."""
    return report.name if outcome.place is None else "%s:%d:%d" % (report.name, *outcome.place)


def totals(reports: list[FileReport]) -> str:
    """One line of numbers."""
    counts = ["%d %s" % (sum(report.count(ending) for report in reports), ending.value) for ending in Ending]
    files = sum(report.has_tests for report in reports)
    troubles = sum(bool(report.trouble) for report in reports)
    refused = ", %d not run" % troubles if troubles else ""
    return "%s in %d file%s%s" % (", ".join(counts), files, "" if files == 1 else "s", refused)


def text_of(reports: list[FileReport]) -> str:
    """A line for each test that didn't pass, and the numbers."""
    lines = []
    for report in reports:
        if report.trouble:
            lines.append(report.trouble)
        if not report.has_tests:
            lines.append("%s: no tests" % report.name)
        for outcome in report.outcomes:
            if outcome.ending is not Ending.PASS:
                said = (where(report, outcome), outcome.name, outcome.ending.value, outcome.text)
                lines.append("%s: %s %s: %s" % said)
    return "".join(line + "\n" for line in [*lines, totals(reports)])


def tap_of(reports: list[FileReport]) -> str:
    """The Test Anything Protocol, version 13."""
    lines = ["TAP version 13"]
    number = 0
    for report in reports:
        if report.trouble:
            number += 1
            lines += ["not ok %d - %s" % (number, report.name), *_diagnosis({"message": report.trouble})]
        for outcome in report.outcomes:
            number += 1
            lines += _tap_lines(report, outcome, number)
    lines.insert(1, "1..%d" % number)
    return "".join(line + "\n" for line in lines)


def _tap_lines(report: FileReport, outcome: Outcome, number: int) -> list[str]:
    line = "%d - %s" % (number, outcome.name)
    if outcome.ending is Ending.PASS:
        return ["ok " + line]
    if outcome.ending is Ending.SKIP:
        return ["ok %s # SKIP %s" % (line, outcome.text.replace("\n", " "))]
    return ["not ok " + line, *_diagnosis({"message": outcome.text, "severity": outcome.ending.value,
                                           "at": where(report, outcome)})]


def _diagnosis(values: dict[str, str]) -> list[str]:
    """A block of YAML behind a test."""
    lines = ["  ---"]
    for key, value in values.items():
        lines.append("  %s: |" % key)
        lines += ["    " + line for line in value.split("\n")]
    return [*lines, "  ..."]


def junit_of(reports: list[FileReport]) -> str:
    """JUnit's XML: a suite for each file."""
    lines = ['<?xml version="1.0" encoding="UTF-8"?>', "<testsuites>"]
    for report in reports:
        if report.has_tests:
            lines += _suite(report)
    return "".join(line + "\n" for line in [*lines, "</testsuites>"])


def _suite(report: FileReport) -> list[str]:
    trouble = bool(report.trouble)
    lines = ['  <testsuite name=%s tests="%d" failures="%d" errors="%d" skipped="%d">' % (
        _attribute(report.name), len(report.outcomes) + trouble, report.count(Ending.FAIL),
        report.count(Ending.ERROR) + trouble, report.count(Ending.SKIP))]
    if trouble:
        lines += ["    <testcase classname=%s name=\"read\">" % _attribute(report.name),
                  "      <error message=%s/>" % _attribute(report.trouble), "    </testcase>"]
    for outcome in report.outcomes:
        lines += _case(report, outcome)
    return [*lines, "  </testsuite>"]


def _case(report: FileReport, outcome: Outcome) -> list[str]:
    place = ' line="%d"' % outcome.place[0] if outcome.place else ""
    head = "    <testcase classname=%s name=%s file=%s%s" % (
        _attribute(outcome.class_name), _attribute(outcome.selector), _attribute(report.name), place)
    inner = []
    elements = {Ending.FAIL: "failure", Ending.ERROR: "error", Ending.SKIP: "skipped"}
    if outcome.ending in elements:
        inner.append("      <%s message=%s/>" % (elements[outcome.ending], _attribute(outcome.text)))
    if outcome.output:
        inner.append("      <system-out>%s</system-out>" % escape(_shown(outcome.output)))
    return [head + ">", *inner, "    </testcase>"] if inner else [head + "/>"]


def _attribute(text: str) -> str:
    return quoteattr(_shown(text))


def _shown(text: str) -> str:
    """A text without what XML can't have."""
    return _NO_XML.sub("?", text)
