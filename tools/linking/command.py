"""The words of tools/link."""
from __future__ import annotations

import argparse
import sys
from pathlib import Path

from .library import FOLDER, Entry, Unusable, library
from .writing import Source, link, refusals, source

ABOUT = """Makes one interchange file of several, with what they need of the library, and writes it to standard output.

What was added of the library is said on standard error, and so is each message that is sent and that no class has.
Where a file has faults, they are said there as FILE:LINE:COLUMN: Reason, nothing is written, and the status is 1."""


def words(arguments: list[str]) -> argparse.Namespace:
    """The words of the command line."""
    parser = argparse.ArgumentParser(prog="link", description=ABOUT, formatter_class=argparse.RawTextHelpFormatter)
    parser.add_argument("files", metavar="FILE", nargs="+", help="an interchange file; - is standard input")
    parser.add_argument("--with", dest="wishes", metavar="NAME", action="append", default=[],
                        help="take all of chosen/NAME.sif of the library, too")
    parser.add_argument("--library", metavar="FOLDER", type=Path, default=FOLDER, help="another library")
    parser.add_argument("--quiet", action="store_true", help="say nothing of what was added, and warn of nothing")
    return parser.parse_args(arguments)


def sources_of(names: list[str]) -> list[Source]:
    """The files that are named."""
    return [source(name, sys.stdin.buffer.read() if name == "-" else Path(name).read_bytes()) for name in names]


def said(added: list[Entry], tests: list[bytes]) -> list[str]:
    """What was added, a line for each file of the library and for each test class."""
    by_file: dict[str, list[Entry]] = {}
    for entry in added:
        by_file.setdefault(entry.file, []).append(entry)
    lines = []
    for file, entries in sorted(by_file.items()):
        classes = {entry.unit.name for entry in entries if entry.key is None}
        shown = [entry.shown for entry in entries if entry.key is None or entry.unit.name not in classes]
        lines.append("link: of lib/%s: %s" % (file, ", ".join(dict.fromkeys(shown))))
    lines.extend("link: %s class>>testSelectors" % name.decode() for name in tests)
    return lines


def main(arguments: list[str]) -> int:
    """Links, and answers the status."""
    given = words(arguments)
    try:
        sources = sources_of(given.files)
        found = library(given.library, given.wishes)
    except (OSError, Unusable) as error:
        print("link: %s" % error, file=sys.stderr)
        return 2
    refused = [line for one in sources for line in refusals(one)]
    if refused:
        print("\n".join(refused), file=sys.stderr)
        return 1
    linked = link(sources, found)
    if not given.quiet:
        print("".join(line + "\n" for line in said(linked.added, linked.tests) + linked.warnings),
              file=sys.stderr, end="")
    sys.stdout.buffer.write(linked.text)
    return 0
