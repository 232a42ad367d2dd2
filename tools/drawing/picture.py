"""A trace as an SVG picture: time goes to the right, and what was begun later stands lower."""
from xml.sax.saxutils import escape

from drawing.events import Bar, Event, bars_of

STEP = 46
ROW = 44
HEIGHT = 24
LEFT = 20
TOP = 34
BELOW = 58
LETTER = 7.3
SIZE = 12

# the word, its bar's colour, and what it is called in the legend
KINDS = {
    "protect": ("#cfe0f7", "on:do:"),
    "ensure": ("#fbe3bf", "ensure:"),
    "curtail": ("#f7d3ae", "ifCurtailed:"),
    "signal": ("#f6c7c7", "signal"),
    "outer": ("#e3cdf2", "outer"),
    "handle": ("#cdeac9", "handler"),
    "default": ("#dcdcdc", "default action"),
    "ask": ("#f3efb4", "handles:"),
}
STYLE = (
    "text{font:%dpx monospace;fill:#222}"
    ".bar{stroke:#555;stroke-width:1}"
    ".cut{stroke:#b00020;stroke-width:3}"
    ".end{stroke:#1b6e2c;stroke-width:3}"
    ".look{stroke:#666;stroke-width:1;stroke-dasharray:3 3;fill:none}"
    ".time{stroke:#eee;stroke-width:1}"
    ".sign{fill:#fff;stroke:#555;stroke-width:1}"
    ".small{font-size:10px;fill:#555}"
    ".mark{fill:#222;text-anchor:middle}" % SIZE
)


def column(place: int) -> float:
    """Where the line at this place stands."""
    return LEFT + STEP * (place + 0.5)


def row(depth: int) -> float:
    """The upper edge of the bars at this depth."""
    return TOP + ROW * depth


def labels(bar: Bar) -> list[str]:
    """What may stand in a bar, the longest first."""
    kind = KINDS[bar.word][1]
    short = ["%s %d" % (kind, bar.number), str(bar.number), ""]
    return ["%s %d of %d" % (kind, bar.number, bar.entry), *short] if bar.word in ("handle", "ask") else short


def fitting(bar: Bar, width: float) -> str:
    """The longest label that a bar of this width has room for."""
    return next(name for name in labels(bar) if len(name) * LETTER <= width - 10 or not name)


def sign(x: float, y: float, text: str) -> str:
    """A sign in a small circle."""
    return '<circle class="sign" cx="%g" cy="%g" r="7"/><text class="small mark" x="%g" y="%g">%s</text>' % (
        x, y, x, y + 3.5, text,
    )


def shown(bar: Bar) -> str:
    """A bar with its name and its end: green where it came to an end, red where an unwinding dropped it."""
    x, y = column(bar.first) - 8, row(bar.depth)
    width = column(bar.last) - column(bar.first) + 16
    parts = [
        '<rect class="bar" x="%g" y="%g" width="%g" height="%g" rx="4" fill="%s"><title>%s</title></rect>'
        % (x, y, width, HEIGHT, KINDS[bar.word][0], escape(labels(bar)[0])),
        '<text x="%g" y="%g">%s</text>' % (x + 6, y + 16, escape(fitting(bar, width))),
    ]
    if bar.how != "stop":
        parts.append(
            '<line class="%s" x1="%g" y1="%g" x2="%g" y2="%g"/>' % (bar.how, x + width, y, x + width, y + HEIGHT)
        )
    return "".join(parts)


class Picture:
    """What is drawn of one trace."""

    def __init__(self, events: list[Event]):
        self.events = events
        self.bars = bars_of(events)
        self.deepest = max((bar.depth for bar in self.bars), default=0)

    def standing(self, number: int) -> Bar | None:
        """The activation with this number."""
        return next((bar for bar in self.bars if bar.number == number), None)

    def innermost(self, place: int) -> Bar | None:
        """The innermost activation that stands at this line."""
        return max(
            (bar for bar in self.bars if bar.first <= place <= bar.last), key=lambda bar: bar.depth, default=None
        )

    def looked(self, place: int, event: Event) -> str:
        """A look at an entry: a dashed line from who searches to the entry, with yes or no."""
        entry, searcher = self.standing(event.entry), self.innermost(place)
        if not entry or not searcher:
            return ""
        x = column(place)
        top = row(entry.depth) + HEIGHT
        line = '<line class="look" x1="%g" y1="%g" x2="%g" y2="%g"/>' % (x, row(searcher.depth), x, top)
        return line + sign(x, top, "✓" if event.said == "yes" else "✗")

    def marked(self, place: int, text: str, number: int) -> str:
        """A sign at the lower edge of the bar of this number."""
        bar = self.standing(number)
        return sign(column(place), row(bar.depth) + HEIGHT, text) if bar else ""

    def turned(self, place: int, event: Event) -> str:
        """The line from a handler's run up to the entry that it is of."""
        entry, bar = self.standing(event.entry), self.standing(event.number)
        if not entry or not bar:
            return ""
        x = column(place) - 4
        return '<path class="look" style="stroke:#1b6e2c" d="M%g %gV%g"/>' % (x, row(bar.depth), row(entry.depth) + HEIGHT)

    def sign_of(self, place: int, event: Event) -> str:
        """What is drawn of an event that begins and ends no bar."""
        if event.word == "tried":
            return self.looked(place, event)
        if event.word == "handle":
            return self.turned(place, event)
        if event.word == "search":
            return self.marked(place, "?", event.number)
        if event.word == "action":
            return self.marked(place, "▶", event.number)
        if event.word == "again":
            return self.marked(place, "↻", event.number)
        return ""

    def grid(self) -> str:
        """A faint line for each event, with its word below."""
        below = row(self.deepest) + HEIGHT + 8
        parts = []
        for place, event in enumerate(self.events):
            word = "stop " + event.said if event.word == "stop" else event.word
            x = column(place)
            parts.append('<line class="time" x1="%g" y1="%g" x2="%g" y2="%g"/>' % (x, TOP - 10, x, below))
            parts.append(
                '<text class="small" transform="translate(%g %g) rotate(40)">%s</text>' % (x - 3, below + 10, word)
            )
        return "".join(parts)

    def svg(self, title: str) -> str:
        """The picture as the text of a file."""
        width = LEFT * 2 + STEP * len(self.events) + 30
        height = row(self.deepest) + HEIGHT + 8 + BELOW
        parts = [
            '<svg xmlns="http://www.w3.org/2000/svg" width="%g" height="%g" viewBox="0 0 %g %g" role="img">'
            % (width, height, width, height),
            "<title>%s</title>" % escape(title),
            "<style>%s</style>" % STYLE,
            '<rect width="%g" height="%g" fill="#fff"/>' % (width, height),
            '<text x="%g" y="18">%s</text>' % (LEFT, escape(title)),
            self.grid(),
            *map(shown, self.bars),
            *(self.sign_of(place, event) for place, event in enumerate(self.events)),
            "</svg>",
        ]
        return "\n".join(part for part in parts if part) + "\n"


def drawn(events: list[Event], title: str) -> str:
    """The picture of a trace with this title."""
    return Picture(events).svg(title)
