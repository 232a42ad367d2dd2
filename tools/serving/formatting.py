"""The canonical form of a buffer, and what it would take away."""
from collections.abc import Iterator

from interchange.chunks import chunks
from interchange.tokens import tokens_of
from serving.buffers import Buffer
from serving.checking import Program

SHOWN = 5


def dropped_comments(data: bytes) -> Iterator[tuple[int, bytes]]:
    """Each comment of a file that its canonical form doesn't keep: its offset and its text.

    A comment that is an element of its own stays; one within another element is no part of the program.
    """
    for chunk in chunks(data):
        found = tokens_of(chunk.text.bytes)
        if found.tokens:
            for start, end in found.comments:
                yield chunk.text.place(start), chunk.text.bytes[start:end]


def first_words(comment: bytes) -> str:
    """The beginning of a comment, in one line."""
    words = " ".join(comment.decode("utf-8", "replace").split())
    return words if len(words) <= 40 else words[:39] + "…"


def taken_away(buffer: Buffer) -> str | None:
    """What formatting would take away, in words, or None."""
    found = list(dropped_comments(buffer.bytes))
    if not found:
        return None
    lines = [
        "line %d: %s" % (buffer.position(buffer.place_of_byte(start))["line"] + 1, first_words(comment))
        for start, comment in found[:SHOWN]
    ]
    more = ", and %d more" % (len(found) - SHOWN) if len(found) > SHOWN else ""
    return "the canonical form has no comments within elements; it would take away %s%s" % ("; ".join(lines), more)


def formatted(program: Program, buffer: Buffer, anyway: bool) -> tuple[str | None, str]:
    """The canonical text of a buffer, or None and why there is none."""
    away = None if anyway else taken_away(buffer)
    if away:
        return None, away + " (the option formatAnyway formats all the same)"
    answer = program.answer(["export"], buffer.bytes)
    if answer is None or answer.status != 0:
        return None, answer.report.strip() if answer else "stx export didn't end"
    return answer.output.decode("utf-8", "surrogatepass"), ""
