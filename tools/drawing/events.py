"""The lines of a trace, and what stands open between them."""
import dataclasses
import re

LINE = re.compile(
    r"(?P<word>protect|ensure|curtail|signal|outer|search|default|action|again|end|cut) (?P<number>\d+)"
    r"|(?P<tried>tried) (?P<entry>\d+) (?P<fits>yes|no)"
    r"|(?P<pair>handle|ask) (?P<begun>\d+) (?P<of>\d+)"
    r"|(?P<known>known)"
    r"|(?P<stop>stop) (?P<ending>done|unhandled|steps|depth|cells|integer)"
)
OPENING = ("protect", "ensure", "curtail", "signal", "outer", "default", "handle", "ask")


@dataclasses.dataclass(frozen=True)
class Event:
    """One line: its word, the number that it begins, ends or speaks of, and what else stands in it."""

    word: str
    number: int = 0
    entry: int = 0
    said: str = ""


@dataclasses.dataclass
class Bar:
    """An activation from its first line to its last, with how deep it stands."""

    word: str
    number: int
    entry: int
    depth: int
    first: int
    last: int = 0
    how: str = "stop"


class NoTrace(Exception):
    """A line that no trace has at its place."""


def event_of(line: str) -> Event:
    """The event that a line tells."""
    found = LINE.fullmatch(line)
    if not found:
        raise NoTrace("no line of a trace: %r" % line)
    if found["word"]:
        return Event(found["word"], int(found["number"]))
    if found["tried"]:
        return Event("tried", entry=int(found["entry"]), said=found["fits"])
    if found["pair"]:
        return Event(found["pair"], int(found["begun"]), int(found["of"]))
    return Event("known") if found["known"] else Event("stop", said=found["ending"])


def events_of(text: str) -> list[Event]:
    """The events of a whole trace, of which the last is its stop."""
    events = [event_of(line) for line in text.splitlines()]
    if not events or events[-1].word != "stop":
        raise NoTrace("the trace has no stop")
    return events


def bars_of(events: list[Event]) -> list[Bar]:
    """The activations of a trace, in the order in which they begin."""
    bars: list[Bar] = []
    opened: list[Bar] = []
    for place, event in enumerate(events):
        if event.word in OPENING:
            bars.append(Bar(event.word, event.number, event.entry, len(opened), place))
            opened.append(bars[-1])
        elif event.word in ("end", "cut"):
            if not opened or opened[-1].number != event.number:
                raise NoTrace("%s %d stands where it isn't the innermost" % (event.word, event.number))
            bar = opened.pop()
            bar.last, bar.how = place, event.word
    for bar in opened:
        bar.last = len(events) - 1
    return bars
