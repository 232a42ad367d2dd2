"""The stamped log of a run: each line that it wrote, and each check's process, with the seconds since the run began.

A line of it is `SECONDS TAB KIND TAB TEXT`. The kind is `said` for a line of the run, `began` and `ended` for a check's
process (its number, crate and kind of work, and in the end the processor seconds that it took), and `total` for the
processor seconds of the whole run.
"""
import dataclasses
from collections.abc import Iterable, Iterator

SAID, BEGAN, ENDED, TOTAL = "said", "began", "ended", "total"
PROOF, TESTS, EDITS = "proof", "tests", "edits"


@dataclasses.dataclass(frozen=True)
class Stamp:
    """A line of a stamped log."""

    seconds: float
    kind: str
    text: str

    def line(self) -> str:
        """The stamp as it is written."""
        return f"{self.seconds:.2f}\t{self.kind}\t{self.text}\n"


@dataclasses.dataclass
class Work:
    """A check's process: the crate, proof, tests or edits, its first and last second, and its processor seconds."""

    crate: str
    kind: str
    began: float
    ended: float
    processor: float = 0.0


def read(lines: Iterable[str]) -> Iterator[Stamp]:
    """The stamps of a log. A last line that was cut off counts for nothing."""
    for line in lines:
        parts = line.rstrip("\n").split("\t", 2)
        if len(parts) == 3 and line.endswith("\n"):
            yield Stamp(float(parts[0]), parts[1], parts[2])


def works(stamps: Iterable[Stamp]) -> list[Work]:
    """The processes that a log tells of. One whose end isn't told lasts up to the log's last stamp."""
    begun: dict[str, Work] = {}
    found: list[Work] = []
    last = 0.0
    for stamp in stamps:
        last = stamp.seconds
        words = stamp.text.split()
        if stamp.kind == BEGAN:
            begun[words[0]] = Work(words[1], words[2], stamp.seconds, stamp.seconds)
            found.append(begun[words[0]])
        elif stamp.kind == ENDED:
            work = begun.pop(words[0])
            work.ended, work.processor = stamp.seconds, float(words[3])
    for work in begun.values():
        work.ended = last
    return found
