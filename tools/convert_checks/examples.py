"""The files of examples/fileouts: what they become is read, prints what is kept, and converts to itself."""
from __future__ import annotations

from collections.abc import Iterator
from pathlib import Path

from .running import TOOLS, Converted, convert, convert_text, run, run_tool

FOLDER = TOOLS.parent / "examples" / "fileouts"


def checks(command: list[str]) -> Iterator[tuple[str, str | None]]:
    """One check for each file or folder that has a `.prints` beside it."""
    for prints in sorted(FOLDER.glob("*/*.prints")):
        path = converted_path(prints)
        yield str(path.relative_to(FOLDER)), wrong_of(command, path, prints)
    yield "tools/convert writes the same", differs_as_a_tool(FOLDER / "pharo" / "shapes.st")
    yield "the words are checked", None if run_tool(["--from=java", "x"]).status == 2 else "the status isn't 2"
    yield "a file that isn't there", wrong_without_file(run_tool(["nowhere.st"]))


def differs_as_a_tool(path: Path) -> str | None:
    """What the tool writes otherwise than the function behind it."""
    found, wanted = run_tool([str(path)]), convert([str(path)])
    return None if found == wanted else "status %d: %s" % (found.status, found.report)


def wrong_without_file(found: Converted) -> str | None:
    """What is wrong with the report of a file that isn't there."""
    wanted = Converted(1, b"", "nowhere.st:1:1: can't be read: No such file or directory\n")
    return None if found == wanted else "status %d: %s" % (found.status, found.report)


def converted_path(prints: Path) -> Path:
    """The file or folder that is named like its `.prints`."""
    found = [path for path in prints.parent.iterdir() if path.stem == prints.stem and path != prints]
    return found[0]


def wrong_of(command: list[str], path: Path, prints: Path) -> str | None:
    """What is wrong with the conversion of a path, or None."""
    first = convert([str(path)])
    if first.status != 0:
        return "status %d: %s" % (first.status, first.report)
    checked = run(command, "check", first.out)
    if not checked.startswith(b"ok "):
        return checked.decode("latin-1")
    written = run(command, "run", first.out)
    if written != prints.read_bytes():
        return "prints %r" % written
    again = convert_text(first.out, [], "F.sif")
    return None if again.out == first.out else "converted again it is another text: %s" % again.report
