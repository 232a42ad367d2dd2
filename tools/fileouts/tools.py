"""The tools that file out, and by what a file shows its tool and its format."""
from __future__ import annotations

import re
from dataclasses import dataclass
from enum import Enum

from interchange.tokens import Dialect, Kind, Token, tokens_of


class Format(Enum):
    """How a file is written."""

    TONEL = "Tonel"
    XML = "VisualWorks' XML"
    INTERCHANGE = "interchange"
    BRACKETS = "GNU Smalltalk's brackets"
    BANGS = "chunks"
    STEPTALK = "StepTalk"
    SCRIPT = "a script"


@dataclass(frozen=True)
class Tool:
    """A tool, as far as it decides what a file means.

    `initializes` is whether `new` sends `initialize`, None where it isn't known. `bangs_in_strings` is whether a bang
    within a string, a comment or behind `$` is a plain byte.
    """

    name: str
    dialect: Dialect
    initializes: bool | None
    bangs_in_strings: bool = False

    @property
    def is_gst(self) -> bool:
        return self.name == "gst"


_IMAGE = Dialect(foreign=True, underscore_assigns=True)
_DOTTED = Dialect(foreign=True, underscore_assigns=True, dotted_names=True, digit_groups=True)

UNKNOWN = Tool("unknown", _IMAGE, None)
TOOLS = {tool.name: tool for tool in (
    Tool("pharo", _IMAGE, True),
    Tool("squeak", _IMAGE, True),
    Tool("cuis", _IMAGE, True),
    Tool("vw", _DOTTED, False),
    Tool("dolphin", _IMAGE, False),
    Tool("gst", _DOTTED, False, bangs_in_strings=True),
    Tool("ansi", Dialect(foreign=True), False),
)}

_HEADS = (
    (rb"'From Pharo", "pharo"),
    (rb"'From Squeak", "squeak"),
    (rb"'From Cuis", "cuis"),
    (rb"'From (?:VisualWorks|ObjectWorks|Objectworks)", "vw"),
    (rb'"Filed out from Dolphin', "dolphin"),
)
_SIGNS = (
    (rb"\bdefineClass:\s*#\w+\s+superclass:", "vw"),
    (rb"\bcategoriesForClass\b|\bguid:\s*\(GUID|\bcategoriesFor:\s*#", "dolphin"),
    (rb"!(?:classDefinition|provides|requires):\s", "cuis"),
    (rb"\bsubclass:\s*#\w+\s[^!]*\bpackage:\s*'|<<\s*#\w+\s+(?:slots|layout|sharedVariables|tag|package):", "pharo"),
    (rb"\bmethodsFor:\s*'[^']*'\s+stamp:|\bcommentStamp:\s*'", "squeak"),
    (rb"\b(?:displayNl|printNl|displayString printNl)\b", "gst"),
)
_TONEL_WORDS = (b"Class", b"Extension", b"Trait", b"Package")
_SQUEAK_BEFORE_INITIALIZE = re.compile(rb"'From Squeak(?:[12]\.|3\.[0-8])")
_CHUNK_FILE = re.compile(rb"(?:^|!)\s*[\w.]+(?: class)? +(?:methodsFor\b|commentStamp:)", re.MULTILINE)


def tool_of(data: bytes, format_found: Format) -> Tool:
    """The tool that wrote a file, by its content."""
    if format_found is Format.INTERCHANGE:
        return TOOLS["ansi"]
    if format_found is Format.BRACKETS:
        return TOOLS["gst"]
    head = data[:4000]
    if _SQUEAK_BEFORE_INITIALIZE.search(head):
        return Tool("squeak", _IMAGE, False)
    for sign, name in _HEADS:
        if re.search(sign, head):
            return TOOLS[name]
    if format_found is Format.TONEL:
        return TOOLS["pharo"]
    for sign, name in _SIGNS:
        if re.search(sign, data):
            return TOOLS[name]
    return UNKNOWN


def format_of(data: bytes) -> Format:
    """The format of a file, by its content."""
    text = data.removeprefix(b"\xef\xbb\xbf")
    if re.match(rb"\s*<\?xml|\s*<st-source", text):
        return Format.XML
    if re.match(rb'\s*(?:"[^"]*"\s*)*\[\s*\|', text) and b"!" in text:
        return Format.STEPTALK
    tokens = tokens_of(text, Dialect(foreign=True, bang_ends=True)).tokens
    kinds = [token.kind for token in tokens[:2]]
    if kinds == [Kind.IDENTIFIER, Kind.BRACE_OPEN] and tokens[0].text in _TONEL_WORDS:
        return Format.TONEL
    if _begins_interchange(tokens):
        return Format.INTERCHANGE
    if _CHUNK_FILE.search(text):
        return Format.BANGS
    if _has_brackets(tokens):
        return Format.BRACKETS
    open_text = any(token.value in ("OpenString", "OpenComment") for token in tokens if token.kind is Kind.FAULT)
    if any(token.kind is Kind.BANG for token in tokens) or (open_text and b"!" in text):
        return Format.BANGS
    return Format.SCRIPT


def _begins_interchange(tokens: list[Token]) -> bool:
    """Whether the first chunk that isn't empty is the version element."""
    words = [token.text for token in tokens[:50] if token.kind is not Kind.BANG]
    return words[:2] == [b"Smalltalk", b"interchangeVersion:"]


def _has_brackets(tokens: list[Token]) -> bool:
    """Whether a class, an extension, a method or an `Eval` in brackets begins somewhere."""
    return any(token.kind is Kind.BLOCK_OPEN and _opens_declaration(tokens, index)
               for index, token in enumerate(tokens))


def _opens_declaration(tokens: list[Token], index: int) -> bool:
    """Whether what stands before an opening bracket announces a declaration."""
    before = tokens[max(0, index - 12) : index]
    words = [token.text for token in before]
    if not before:
        return False
    if words[-1] == b"Eval" or (words[-1] == b"extend" and len(words) > 1):
        return True
    if len(words) > 2 and words[-2] == b"subclass:" and before[-1].kind in (Kind.IDENTIFIER, Kind.SYMBOL):
        return True
    if b">>" not in words:
        return False
    pattern = before[len(words) - words[::-1].index(b">>") :]
    return bool(pattern) and all(token.kind in (Kind.IDENTIFIER, Kind.KEYWORD, Kind.OPERATOR) for token in pattern)
