"""One client: what it is offered, and which of its requests is met by what."""
from __future__ import annotations

import os
import subprocess
import threading
import urllib.parse
from collections.abc import Callable
from typing import Any, BinaryIO

from interchange.chunks import chunks
from interchange.elements import UnitKind
from serving import pages, ways
from serving.buffers import Buffer
from serving.checking import Program, Refusal
from serving.commands import RUN, RUN_TESTS, Commands
from serving.diagnosing import Diagnosing
from serving.formatting import formatted
from serving.server import INVALID_PARAMS, Params, Refused, Server
from serving.warnings import warnings
from serving.ways import View

TOP = os.path.dirname(os.path.dirname(os.path.dirname(os.path.abspath(__file__))))
OFFERS = {
    "positionEncoding": "utf-16",
    "textDocumentSync": {"openClose": True, "change": 2},
    "documentSymbolProvider": True,
    "definitionProvider": True,
    "referencesProvider": True,
    "documentHighlightProvider": True,
    "hoverProvider": True,
    "completionProvider": {},
    "renameProvider": {"prepareProvider": True},
    "foldingRangeProvider": True,
    "workspaceSymbolProvider": True,
    "documentFormattingProvider": True,
    "codeLensProvider": {},
    "executeCommandProvider": {"commands": [RUN, RUN_TESTS]},
}
MOST_SYMBOLS = 500


def built_program() -> str:
    """The program of this checkout, or the command that builds it."""
    finder = os.path.join(TOP, "tools", "program")
    if os.path.exists(finder):
        found = subprocess.run([finder], stdout=subprocess.PIPE, stderr=subprocess.DEVNULL, text=True, check=False)
        if found.returncode == 0:
            return found.stdout.strip()
    return os.path.join(TOP, "stx")


def span_of(data: bytes, refusal: Refusal) -> tuple[int, int]:
    """Where a refusal stands in a file: from its byte to the end of the word there.

    An element that isn't there stands behind the last bang.
    """
    last = None
    for chunk in chunks(data):
        last = chunk
        if chunk.number == refusal.element and not chunk.blank:
            start = chunk.text.place(min(refusal.byte, len(chunk.text.bytes)))
            if refusal.byte == 0:
                start = chunk.text.place(len(chunk.text.bytes) - len(chunk.text.bytes.lstrip()))
            return start, max(word_end(data, start), start)
    start = last.start if last else 0
    return start, start


def word_end(data: bytes, start: int) -> int:
    """Where the word that begins at an offset ends; one byte further where none begins there."""
    end = start
    while end < len(data) and (data[end : end + 1].isalnum() or data[end] == 0x5F):
        end += 1
    return max(end, min(start + 1, len(data)))


class Session:
    """The server for one client."""

    def __init__(self, source: BinaryIO, sink: BinaryIO, program: str = ""):
        self.server = Server(source, sink)
        self.program = Program([program or built_program()])
        self.commands = Commands(self.program, self.shown)
        self.diagnosing = Diagnosing(self.said, [self.faults, self.warnings])
        self.format_anyway = False
        self.folders: list[str] = []
        self.views: dict[str, View] = {}
        self.kept: dict[str, tuple[float, list[dict[str, Any]]]] = {}
        self.turn = threading.Lock()
        self.server.requests.update(self.requests())
        self.server.notices["workspace/didChangeConfiguration"] = self.configured
        self.server.on_change = self.diagnosing.changed
        self.server.on_close = self.closed

    def requests(self) -> dict[str, Callable[[Params], Any]]:
        """What is answered by what."""
        return {
            "initialize": self.initialize,
            "textDocument/documentSymbol": lambda params: ways.outline(self.view(params)),
            "textDocument/definition": lambda params: ways.definition(self.view(params), params["position"]),
            "textDocument/references": self.references,
            "textDocument/documentHighlight": lambda params: ways.highlights(self.view(params), params["position"]),
            "textDocument/hover": lambda params: ways.hover(self.view(params), params["position"]),
            "textDocument/completion": lambda params: ways.completions(self.view(params), params["position"]),
            "textDocument/prepareRename": lambda params: ways.prepared(self.view(params), params["position"]),
            "textDocument/rename": self.rename,
            "textDocument/foldingRange": lambda params: ways.folds(self.view(params)),
            "textDocument/formatting": self.formatting,
            "textDocument/codeLens": self.lenses,
            "workspace/symbol": self.symbols,
            "workspace/executeCommand": self.execute,
            "stx/text": lambda params: self.server.buffer(params).text,
        }

    def run(self) -> int:
        """Serves the client to its end, and answers the exit status."""
        try:
            return self.server.run()
        finally:
            self.diagnosing.stop()
            self.commands.stop()

    # the connection

    def initialize(self, params: Params) -> dict[str, Any]:
        """What the server offers."""
        roots = [one["uri"] for one in params.get("workspaceFolders") or []] or [params.get("rootUri")]
        self.folders = [path for path in map(path_of, roots) if path]
        self.take_options(params.get("initializationOptions"))
        return {"capabilities": OFFERS, "serverInfo": {"name": "stx"}}

    def configured(self, params: Params) -> None:
        """The user's settings have changed."""
        settings = params.get("settings")
        self.take_options(settings.get("stx") if isinstance(settings, dict) else None)

    def take_options(self, options: Any) -> None:
        """Takes the options that are there."""
        if isinstance(options, dict) and "formatAnyway" in options:
            self.format_anyway = bool(options["formatAnyway"])

    def view(self, params: Params) -> View:
        """The open file that a request speaks of, with its index."""
        return self.view_of(self.server.buffer(params))

    def view_of(self, buffer: Buffer) -> View:
        """The index of a buffer, made once for each version."""
        with self.turn:
            view = self.views.get(buffer.uri)
            if view is None or view.buffer is not buffer:
                view = self.views[buffer.uri] = View(buffer)
            return view

    def closed(self, uri: str) -> None:
        """A file was closed: nothing is wrong with it any more."""
        self.diagnosing.closed(uri)
        self.views.pop(uri, None)
        self.server.notify("textDocument/publishDiagnostics", {"uri": uri, "diagnostics": []})

    # diagnostics

    def faults(self, buffer: Buffer, is_old: Callable[[], bool]) -> list[dict[str, Any]]:
        """The first fault of a buffer, by the program."""
        refusal = self.program.refusal(buffer.bytes)
        if refusal is None:
            return []
        start, end = (buffer.place_of_byte(offset) for offset in span_of(buffer.bytes, refusal))
        return [{
            "range": buffer.range(start, end),
            "severity": 1,
            "source": "stx",
            "code": refusal.reason,
            "codeDescription": {"href": pages.link(refusal.reason)},
            "message": "%s: %s" % (refusal.reason, pages.reasons().get(refusal.reason, "refused")),
        }]

    def warnings(self, buffer: Buffer, is_old: Callable[[], bool]) -> list[dict[str, Any]]:
        """The warnings for a buffer."""
        return warnings(self.view_of(buffer), is_old)

    def said(self, buffer: Buffer, diagnostics: list[dict[str, Any]]) -> None:
        """Says what was found."""
        params = {"uri": buffer.uri, "diagnostics": diagnostics}
        if buffer.version is not None:
            params["version"] = buffer.version
        self.server.notify("textDocument/publishDiagnostics", params)

    # requests that need more than a line

    def references(self, params: Params) -> list[dict[str, Any]]:
        """Senders of a selector, users of a name."""
        context = params.get("context") or {}
        return ways.references(self.view(params), params["position"], bool(context.get("includeDeclaration")))

    def rename(self, params: Params) -> dict[str, Any]:
        """The edits of a renaming."""
        try:
            return ways.rename(self.view(params), params["position"], str(params["newName"]).encode("utf-8", "replace"))
        except ways.CantRename as fault:
            raise Refused(str(fault)) from fault

    def formatting(self, params: Params) -> list[dict[str, Any]]:
        """The edit that gives a buffer its canonical form."""
        buffer = self.server.buffer(params)
        text, why = formatted(self.program, buffer, self.format_anyway)
        if text is None:
            raise Refused(why)
        return [] if text == buffer.text else [{"range": buffer.whole(), "newText": text}]

    def lenses(self, params: Params) -> list[dict[str, Any]]:
        """'run' at each program initializer, and 'run tests' at each class of tests."""
        view = self.view(params)
        found = []
        for unit in view.index.units:
            above = view.index.above(unit.name)[1:] if unit.kind is UnitKind.CLASS else []
            if unit.kind is UnitKind.PROGRAM_INITIALIZER:
                title, command = "run", RUN
            elif b"TestCase" in above:
                title, command = "run tests", RUN_TESTS
            else:
                continue
            start = unit.header.text.place(len(unit.header.text.bytes) - len(unit.header.text.bytes.lstrip()))
            said = {"title": title, "command": command, "arguments": [view.buffer.uri]}
            found.append({"range": view.range(start, unit.header.end), "command": said})
        return found

    def execute(self, params: Params) -> None:
        """Begins a run; what comes of it is shown when it has ended."""
        arguments = params.get("arguments") or [None]
        if params.get("command") not in (RUN, RUN_TESTS):
            raise Refused("no such command: %s" % params.get("command"), INVALID_PARAMS)
        buffer = self.server.buffer({"textDocument": {"uri": arguments[0]}})
        if not self.commands.start(params["command"], buffer):
            raise Refused("another run hasn't ended yet")

    def shown(self, text: str) -> None:
        """Shows what came of a run: all of it in the log, its first line as a message."""
        self.server.notify("window/logMessage", {"type": 3, "message": text})
        lines = text.splitlines()
        self.server.show("\n".join(lines[:20]))

    # symbols of the folder

    def symbols(self, params: Params) -> list[dict[str, Any]]:
        """The symbols of all interchange files of the folder, open ones as they stand in the editor."""
        query = str(params.get("query") or "")
        found: list[dict[str, Any]] = []
        for uri, buffer in list(self.server.buffers.items()):
            found += ways.matching(ways.flat(ways.outline(self.view_of(buffer)), uri), query)
        opened = {path_of(uri) for uri in self.server.buffers}
        for folder in self.folders:
            for name in ways.files_in(folder):
                if name not in opened:
                    found += ways.matching(self.file_symbols(name), query)
        return found[:MOST_SYMBOLS]

    def file_symbols(self, name: str) -> list[dict[str, Any]]:
        """The symbols of a file, read again where it has changed."""
        try:
            changed = os.stat(name).st_mtime
        except OSError:
            return []
        if name not in self.kept or self.kept[name][0] != changed:
            view = ways.file_view(name)
            symbols = ways.flat(ways.outline(view), view.buffer.uri) if view else []
            self.kept[name] = (changed, symbols)
        return self.kept[name][1]


def path_of(uri: Any) -> str | None:
    """The path of a file's URI."""
    parts = urllib.parse.urlsplit(uri) if isinstance(uri, str) else None
    return urllib.parse.unquote(parts.path) if parts and parts.scheme == "file" else None
