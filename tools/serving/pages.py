"""What the pages in docs/ say: reasons of refusals in words, and the built-in messages with what they answer and signal."""
import dataclasses
import functools
import os
import re
import urllib.parse

TOP = os.path.dirname(os.path.dirname(os.path.dirname(os.path.abspath(__file__))))
REASON = re.compile(r"^\| `(\w+)` \| (.*) \|$")
HEADING = re.compile(r"^### (?:[^:]*: )?(?P<classes>[\w, ]+?)(?P<side> class side)?$")
ROW = re.compile(r"^\| `(?P<selector>[^`]+)` \| (?P<answer>.*?) \| ?(?P<errors>.*?) ?\|$")

GRAMMAR = {
    "Unfinished": "the input ends within an element: a bang is missing",
    "ElementTooLong": "an element has at most 1,048,576 bytes",
    "InputTooLong": "a file has at most 16,777,216 bytes",
    "MissingVersion": "the first element is `Smalltalk interchangeVersion: '1.0'`",
    "MissingText": "a header needs a text behind it",
    "BadCharacter": "no token begins so",
    "OpenString": "the string that begins here has no end",
    "OpenComment": "the comment that begins here has no end",
    "BadRadix": "the radix is 2 to 36, and each digit below it",
    "IntegerTooLarge": "integers are -2^127 to 2^127 - 1",
    "FloatOutside": "floats and scaled decimals are left out",
    "Syntax": "this can't stand here",
    "TooDeep": "at most 200 `(`, `[` and `#(` are open at once",
}


def page(name: str) -> str:
    """The text of a page, or nothing where the pages aren't there."""
    try:
        with open(os.path.join(TOP, "docs", name), encoding="utf-8") as file:
            return file.read()
    except OSError:
        return ""


@functools.cache
def reasons() -> dict[str, str]:
    """Each reason of a refusal, in words."""
    text = page("interchange.md").partition("## The static rules")[2].partition("\n## ")[0]
    rules = dict(found.groups() for found in map(REASON.match, text.splitlines()) if found)
    return {**GRAMMAR, **rules}


def link(reason: str) -> str:
    """The page's entry on a reason."""
    anchor = "an-example-of-each-reason" if reason in GRAMMAR else "the-static-rules"
    return "file://%s#%s" % (urllib.parse.quote(os.path.join(TOP, "docs", "interchange.md")), anchor)


@dataclasses.dataclass(frozen=True)
class Entry:
    """A row of the page on built-in messages: for which classes and side, the selector, what it answers and signals."""

    classes: tuple[str, ...]
    is_class_side: bool
    selector: str
    answer: str
    errors: str

    def shown(self) -> str:
        """The row as a few lines."""
        side = " class" if self.is_class_side else ""
        lines = ["**%s%s** `%s`" % (", ".join(self.classes), side, self.selector), "", "answers " + self.answer]
        return "\n".join(lines + (["", "signals " + self.errors] if self.errors else []))


def entries_of(text: str) -> list[Entry]:
    """The rows of the page, table by table."""
    found: list[Entry] = []
    classes: tuple[str, ...] = ()
    is_class_side = False
    for line in text.splitlines():
        heading = HEADING.match(line)
        row = ROW.match(line)
        if heading:
            classes = tuple(name.strip() for name in heading["classes"].split(","))
            is_class_side = bool(heading["side"])
        elif row and classes:
            selector = row["selector"].replace("\\|", "|")
            found.append(Entry(classes, is_class_side, selector, row["answer"], row["errors"]))
    return found


@functools.cache
def entries() -> dict[str, list[Entry]]:
    """The rows of the page on built-in messages by their selectors."""
    found: dict[str, list[Entry]] = {}
    for entry in entries_of(page("builtins.md").partition("## Every object")[2]):
        found.setdefault(entry.selector, []).append(entry)
    return found
