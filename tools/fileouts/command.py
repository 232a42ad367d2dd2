"""The command line of tools/convert."""
from __future__ import annotations

import argparse
import re
import sys
from dataclasses import dataclass, field
from pathlib import Path

from interchange import builtins
from interchange.bodies import Parser

from . import additions, bangs, brackets, checks, filetree, interchange_files, library, tonel
from .code import Coder, has_code
from .linked import wishes_of, with_library
from .names import Names
from .program import Item, MethodItem, Program, Target
from .sources import Report, Source, Spot, shown
from .tools import TOOLS, Format, tool_of
from .writing import written

READERS = {Format.TONEL: tonel.read, Format.INTERCHANGE: interchange_files.read, Format.BRACKETS: brackets.read,
           Format.BANGS: bangs.read, Format.SCRIPT: brackets.read}
REFUSED_FORMATS = {Format.XML: "VisualWorks' XML isn't read: file out as chunks",
                   Format.STEPTALK: "StepTalk's files aren't read"}
ENDINGS = (".st", ".cs", ".cls", ".sif", ".pac")
"""The endings of the files that are read in a folder."""
_POOLS = re.compile(rb"(?:poolDictionaries|sharedPools):\s*'([^']*)'")


@dataclass
class Words:
    """The words of the command line."""

    paths: list[Path]
    tool: str | None
    initialize: str | None
    each: bool
    link: bool


@dataclass
class Conversion:
    """One run over some files and folders."""

    words: Words
    report: Report = field(default_factory=Report)

    loaded: int = 0

    def __post_init__(self) -> None:
        self.program = Program(self.report)

    def run(self) -> bytes | None:
        """The interchange file, None where something is refused."""
        for path in self.words.paths:
            self._path(path)
        self._loaded()
        names = Names(self.program, library.load())
        checks.settle_classes(self.program, names)
        coder = Coder(names, self.report, checks.shared_names(self.program), self.words.each)
        texts = self._texts(coder)
        checks.settle_methods(self.program, names)
        checks.settle_code(self.program, names)
        rows = self._rows(names, coder)
        self._unanswered(coder, names)
        if self.report.refusals:
            return None
        wanted = [*names.fresh, *coder.wanted]
        text = written(self.program, texts, list(dict.fromkeys(wanted)), rows)
        return self._linked(text, coder) if self.words.link else text

    def _linked(self, text: bytes, coder: Coder) -> bytes:
        compares = any(selector in coder.sent for selector in (b"=", b"~=", b"assert:equals:", b"includes:"))
        return with_library(text, wishes_of(self.program, compares, coder.applies_objects))

    # files

    def _path(self, path: Path) -> None:
        if path.is_dir():
            self._folder(path)
        else:
            source = self._open(path)
            if source is not None:
                self._file(source, path.name)

    def _open(self, path: Path) -> Source | None:
        """A file with the tool that wrote it; None where it can't be read."""
        number = len(self.program.sources)
        try:
            data = path.read_bytes()
        except OSError as error:
            source = Source(str(path), b"", number, TOOLS["pharo"])
            self.report.refuse(Spot(source, 0), "can't be read: %s" % error.strerror)
            return None
        source = Source(str(path), data, number, TOOLS["pharo"])
        source.tool = TOOLS[self.words.tool] if self.words.tool else tool_of(data, source.format)
        self.program.sources.append(source)
        self.program.pool_names.update(name for found in _POOLS.findall(data) for name in found.split())
        return source

    def _folder(self, folder: Path) -> None:
        """A folder: FileTree's folders of classes in it, and all other Smalltalk files."""
        classes = sorted(path for path in folder.rglob("*")
                         if path.suffix in (".class", ".extension") and path.is_dir())
        if folder.suffix in (".class", ".extension"):
            classes.insert(0, folder)
        for path in classes:
            filetree.read(self.program, path, self._open_filetree)
        others = [path for path in sorted(folder.rglob("*"))
                  if path.suffix in ENDINGS and path.is_file() and not any(above in classes for above in path.parents)]
        opened = [(path, source) for path in others if (source := self._open(path))]
        for path, source in sorted(opened, key=lambda row: row[1].format is not Format.TONEL):
            self._file(source, path.name)
        if not classes and not others:
            source = Source(str(folder), b"", len(self.program.sources), TOOLS["pharo"])
            self.report.refuse(Spot(source, 0), "nothing to convert is in this folder")

    def _open_filetree(self, path: Path) -> Source | None:
        source = self._open(path)
        if source is not None:
            source.is_package = True
            source.tool = TOOLS[self.words.tool or "pharo"]
        return source

    def _file(self, source: Source, name: str) -> None:
        """Reads a file by its format."""
        found = source.format
        if found is not Format.TONEL:
            self._loaded()
        if name.endswith(".pac"):
            self.report.warn(Spot(source, 0), "a package of Dolphin is left out")
        elif found in REFUSED_FORMATS:
            self.report.refuse(Spot(source, 0), REFUSED_FORMATS[found])
        else:
            READERS[found](self.program, source)

    def _loaded(self) -> None:
        """Loading a package sends `initialize` to each class that has it on its class side, superclasses first."""
        having = {item.class_name: item for item in self.program.items[self.loaded :]
                  if isinstance(item, MethodItem) and is_initialize(item)}
        self.loaded = len(self.program.items)
        for item in additions.sorted_classes(self.program):
            if item.name in having:
                origin = self.program.made(having[item.name].origin, b"self initialize")
                self.program.initialize_class(item.name, b"", origin)

    # code

    def _texts(self, coder: Coder) -> dict[Item, bytes]:
        texts: dict[Item, bytes] = {}
        for item in self.program.methods():
            text = coder.method(item)
            if text is not None:
                texts[item] = text
        kept = []
        for item in self.program.items:
            if item in texts or not hasattr(item, "parts"):
                kept.append(item)
                continue
            text = coder.code(item)
            is_empty = item.target is Target.PROGRAM and not item.annotations and not has_code(text or b"")
            if text is not None and not is_empty:
                texts[item] = text
                kept.append(item)
        self.program.items = kept
        return texts

    def _rows(self, names: Names, coder: Coder) -> list[additions.Row]:
        rows = additions.print_rows(self.program, names) if self._is_foreign() else []
        having = additions.has_initialize(self.program)
        if self._initializes():
            return additions.initialize_rows(self.program, names) + rows
        if having and self.words.initialize is None:
            self._warn_of_initialize(having[0], coder)
        return rows

    def _warn_of_initialize(self, item: MethodItem, coder: Coder) -> None:
        """Warns where `new` may have sent `initialize`, and doesn't here."""
        if self._initializes() is None:
            self.report.warn(item.spot, "whether `new` sends `initialize` depends on the tool: say --from or "
                             "--initialize")
        elif item.spot.source.tool.is_gst and b"initialize" not in coder.sent:
            self.report.warn(item.spot, "`new` doesn't send `initialize` up to version 3.2.5: say "
                             "--initialize=yes for later ones")

    def _is_foreign(self) -> bool:
        return any(source.tool.name != "ansi" for source in self.program.sources)

    def _initializes(self) -> bool | None:
        """Whether `new` sends `initialize`, None where a file's tool isn't known and none says that it does."""
        if self.words.initialize:
            return self.words.initialize == "yes"
        answers = [source.tool.initializes for source in self.program.sources]
        return True if True in answers else None if None in answers else False

    def _unanswered(self, coder: Coder, names: Names) -> None:
        """Warns of each selector that is sent and that no class has."""
        had = {selector for _, _, selector in builtins.messages()} | names.library.selectors
        had |= {item.selector for item in self.program.methods()}
        for selector, spot in coder.sent.items():
            if selector not in had and spot.source.tool.name != "":
                self.report.warn(spot, "#%s is sent, and no class here has it" % shown(selector))


def is_initialize(item: MethodItem) -> bool:
    """Whether it is a method `initialize` of the class side in a package."""
    source = item.origin.source
    if not item.class_side or not source.is_package or b"initialize" not in item.origin.bytes:
        return False
    return Parser(item.origin.bytes, source.tool.dialect).method().selector == b"initialize"


def words_of(arguments: list[str]) -> Words:
    """The words, or an end with status 2."""
    about = "Writes one interchange file of what other Smalltalks file out. docs/fileouts.md says what becomes what."
    parser = argparse.ArgumentParser(prog="convert", description=about)
    parser.add_argument("paths", nargs="+", type=Path, metavar="FILE|FOLDER")
    parser.add_argument("--from", dest="tool", choices=sorted(TOOLS), help="the tool, where no sign tells it")
    parser.add_argument("--initialize", choices=("yes", "no"), help="whether `new` sends `initialize`")
    parser.add_argument("--each", action="store_true", help="an error in a statement of a file ends that one alone")
    parser.add_argument("--no-link", dest="link", action="store_false", help="don't add what is used of the library")
    found = parser.parse_args(arguments)
    return Words(found.paths, found.tool, found.initialize, found.each, found.link)


def converted(arguments: list[str]) -> tuple[bytes | None, list[str]]:
    """The interchange file, None where something is refused, and the lines of the report."""
    conversion = Conversion(words_of(arguments))
    result = conversion.run()
    return result, conversion.report.lines()


def main(arguments: list[str]) -> int:
    """Converts, and answers the status: 0 if a file was written, 1 if something is refused."""
    result, lines = converted(arguments)
    for line in lines:
        sys.stderr.buffer.write(line.encode("utf-8", "surrogateescape") + b"\n")
    sys.stdout.buffer.write(result or b"")
    return 1 if result is None else 0
