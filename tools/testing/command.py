"""The words of tools/test."""
from __future__ import annotations

import argparse
import concurrent.futures
import os
import shlex
import subprocess
import sys
from collections.abc import Iterator
from pathlib import Path

from linking.library import FOLDER, Library, Unusable, library

from .programs import TOOLS
from .reports import junit_of, tap_of, text_of, totals
from .runs import Ending, FileReport, NoProgram, run_file

ABOUT = """Runs the tests of files, and says how each ended.

A file is an interchange file, or one that tools/convert reads. Of a folder each .sif file within is taken, and where
there is none the folder is given to tools/convert as a whole. The tests are those of the classes under TestCase.

The status is 0 where all tests passed or were skipped, 1 where one didn't or a file couldn't be run, 2 for a faulty
command line, and 3 where there was no test."""
LINES = "test-lines"


def words(arguments: list[str]) -> argparse.Namespace:
    """The words of the command line."""
    parser = argparse.ArgumentParser(prog="test", description=ABOUT, formatter_class=argparse.RawTextHelpFormatter)
    add = parser.add_argument
    add("files", metavar="FILE|FOLDER", nargs="+", type=Path)
    add("--use", dest="uses", metavar="FILE", action="append", default=[], type=Path,
        help="a file that is part of each program: what is tested")
    add("--with", dest="wishes", metavar="NAME", action="append", default=[], help="as of tools/link")
    add("--library", metavar="FOLDER", type=Path, default=FOLDER, help="as of tools/link")
    for limit in ("steps", "depth", "cells"):
        add("--" + limit, metavar="N", type=int, help="the limit of `stx run`, for each run")
    add("--jobs", metavar="N", type=int, default=os.cpu_count(), help="how many files at once")
    add("--tap", action="store_true", help="write TAP in place of the lines for people")
    add("--junit", metavar="FILE", type=Path, help="write JUnit's XML to a file, too")
    add("--quiet", action="store_true", help="no line of progress")
    add("--stx", metavar="COMMAND", default=os.environ.get("STX"),
        help="the program and words before `run`; else the variable STX, else what tools/program finds")
    return parser.parse_args(arguments)


def files_of(paths: list[Path]) -> Iterator[Path]:
    """The files of some paths, and the folders that are programs as a whole."""
    for path in paths:
        inner = sorted(path.rglob("*.sif")) if path.is_dir() else []
        yield from inner or [path]


def own_program() -> str:
    """The built program of the project. Nothing is built here."""
    run = subprocess.run([TOOLS / "program"], capture_output=True, text=True, check=False)
    if run.returncode:
        raise NoProgram(run.stderr.strip())
    return run.stdout.strip()


def command_of(given: argparse.Namespace) -> list[str]:
    """The command that runs a program."""
    command = [*(shlex.split(given.stx) if given.stx else [own_program()]), "run"]
    for limit in ("steps", "depth", "cells"):
        if getattr(given, limit) is not None:
            command += ["--" + limit, str(getattr(given, limit))]
    return command


def run_all(given: argparse.Namespace, found: Library) -> list[FileReport]:
    """Runs all files, several at once, with a line of progress on a terminal."""
    files = list(files_of(given.files))
    command = command_of(given)
    shows = sys.stderr.isatty() and not given.quiet
    reports: list[FileReport] = []
    with concurrent.futures.ThreadPoolExecutor(max(1, given.jobs)) as pool:
        for report in pool.map(lambda path: run_file(path, given.uses, found, command), files):
            reports.append(report)
            if shows:
                line = "\r\x1b[K%d of %d: %s" % (len(reports), len(files), totals(reports))
                print(line, end="", file=sys.stderr, flush=True)
    if shows:
        print("\r\x1b[K", end="", file=sys.stderr)
    return reports


def status_of(reports: list[FileReport]) -> int:
    """The status that the reports stand for."""
    if any(report.trouble or report.count(Ending.FAIL) or report.count(Ending.ERROR) for report in reports):
        return 1
    return 0 if any(report.outcomes for report in reports) else 3


def main(arguments: list[str]) -> int:
    """Runs the tests, and answers the status."""
    given = words(arguments)
    try:
        found = library(given.library, [*given.wishes, LINES])
        reports = run_all(given, found)
        if given.junit:
            given.junit.write_text(junit_of(reports), encoding="utf-8")
    except (OSError, Unusable, NoProgram) as error:
        print("test: %s" % error, file=sys.stderr)
        return 2
    print(tap_of(reports) if given.tap else text_of(reports), end="")
    return status_of(reports)
