"""What a converted program needs of the library is added to it."""
from __future__ import annotations

from functools import cache

from linking.library import FOLDER, Library, library
from linking.writing import link, source

from . import interchange_files
from .edits import trimmed
from .program import CodeItem, Item, MethodItem, Program
from .sources import Report, Source
from .tools import TOOLS
from .writing import written

PRINTING = {"pharo": "printing-pharo", "unknown": "printing-pharo", "squeak": "printing-squeak",
            "cuis": "printing-squeak", "dolphin": "printing-squeak", "vw": "printing-vw", "gst": "printing-gst"}
"""How collections print, by the tool."""


def wishes_of(program: Program, compares: bool, applies_objects: bool) -> list[str]:
    """What of the library is taken beside what is sent, after the tool of the first file that isn't interchange."""
    tools = [source.tool.name for source in program.sources if source.tool.name in PRINTING]
    if not tools:
        return []
    wishes = [PRINTING[tools[0]]]
    wishes += ["equality"] if compares else []
    wishes += ["values"] if applies_objects else []
    return wishes


def with_library(text: bytes, wishes: list[str]) -> bytes:
    """The program with what it needs of the library, laid out like the rest."""
    added = link([source("", text)], _library(tuple(wishes)))
    return laid_out(added.text)


@cache
def _library(wishes: tuple[str, ...]) -> Library:
    return library(FOLDER, list(wishes))


def laid_out(text: bytes) -> bytes:
    """An interchange file in the layout of this tool."""
    program = Program(Report())
    interchange_files.read(program, Source("", text, 0, TOOLS["ansi"]))
    return written(program, texts_of(program), [], [])


def texts_of(program: Program) -> dict[Item, bytes]:
    """The texts of methods and initializers as they stand."""
    texts: dict[Item, bytes] = {}
    for item in program.items:
        if isinstance(item, MethodItem):
            texts[item] = trimmed(item.origin.bytes)
        elif isinstance(item, CodeItem):
            texts[item] = trimmed(item.parts[0][1].bytes)
    return texts
