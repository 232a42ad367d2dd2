"""What a run of the gate took, crate by crate, of a stamped log: as a table for a page."""
import dataclasses
import re
from collections.abc import Mapping

from gate import sources, stamps

IS_PROVED = re.compile(r"rt: (\w+) (?:proved|NOT PROVED)$")
IS_KEPT = re.compile(r"rt: (\w+) is kept\b")
HEAD = """| Crate | Proofs | Tests | Edits | Takes | Critical path |
|---|---|---|---|---|---|
"""


@dataclasses.dataclass
class Times:
    """The seconds of a crate: of processors by kind of work, and from the begin of its proof to the end."""

    processor: dict[str, float] = dataclasses.field(default_factory=lambda: dict.fromkeys(KINDS, 0.0))
    began: float | None = None
    ended: float = 0.0
    is_kept: bool = False

    def takes(self) -> float:
        """How long its proof takes, by the clock."""
        return self.ended - self.began if self.began is not None else 0.0


KINDS = (stamps.PROOF, stamps.TESTS, stamps.EDITS)


def ends_of(log: list[stamps.Stamp]) -> dict[str, Times]:
    """Of each crate that the log says to be proved or kept when it says so."""
    found: dict[str, Times] = {}
    for stamp in log:
        proved, kept = IS_PROVED.match(stamp.text), IS_KEPT.match(stamp.text)
        if stamp.kind == stamps.SAID and (proved or kept):
            found[(proved or kept)[1]] = Times(ended=stamp.seconds, is_kept=bool(kept))
    return found


def add_works(found: dict[str, Times], log: list[stamps.Stamp]) -> None:
    """Adds what the prover's processes took, and when those of proofs began."""
    for work in stamps.works(log):
        times = found.setdefault(work.crate, Times(ended=work.ended))
        times.processor[work.kind] += work.processor
        if work.kind == stamps.PROOF:
            times.began = work.began if times.began is None else min(work.began, times.began)


def times_of(log: list[stamps.Stamp], crates: Mapping[str, str]) -> dict[str, Times]:
    """The times of each crate that the log tells of, in the order in which their proofs end."""
    found = ends_of(log)
    add_works(found, log)
    for name, times in found.items():
        if times.began is None and not times.is_kept:
            times.began = begin_by_others(name, found, crates)
    return found


def begin_by_others(name: str, found: Mapping[str, Times], crates: Mapping[str, str]) -> float:
    """When a proof can have begun whose process wasn't seen: as the last of the crates below it had ended."""
    below = sources.crates_below(dict(crates), name) if name in crates else []
    return max((found[it].ended for it in below if it in found and it != name), default=0.0)


def critical_path(found: Mapping[str, Times], crates: dict[str, str]) -> list[str]:
    """Of all chains of crates that stand on one another the one whose proofs take longest, from the lowest on."""
    chains: dict[str, tuple[float, list[str]]] = {}

    def chain(name: str) -> tuple[float, list[str]]:
        """The longest chain up to a crate."""
        if name not in chains:
            below = [chain(it) for it in sources.stands_on(crates, name) if it in crates]
            seconds, names = max(below, default=(0.0, []))
            takes = found[name].takes() if name in found else 0.0
            chains[name] = seconds + takes, [*names, name]
        return chains[name]

    return max((chain(name) for name in crates), default=(0.0, []))[1]


def minutes(seconds: float) -> str:
    """Seconds as minutes of a table."""
    return f"{seconds / 60:.1f}"


def row(name: str, times: Times, path: list[str]) -> str:
    """A crate's row of the table."""
    processor = [minutes(times.processor[kind]) for kind in KINDS]
    takes = "kept" if times.is_kept else minutes(times.takes())
    return f"| `{name}` | {' | '.join(processor)} | {takes} | {minutes(times.takes()) if name in path else ''} |\n"


def table(log: list[stamps.Stamp], crates: dict[str, str]) -> str:
    """The table of a log in minutes, with the sums and the time of the whole run."""
    found = times_of(log, crates)
    path = critical_path(found, crates)
    rows = "".join(row(name, times, path) for name, times in found.items())
    sums = [sum(times.processor[kind] for times in found.values()) for kind in KINDS]
    total = sum(float(stamp.text) for stamp in log if stamp.kind == stamps.TOTAL)
    whole = max((stamp.seconds for stamp in log), default=0.0)
    along = sum(found[name].takes() for name in path if name in found)
    last = f"| all | {' | '.join(map(minutes, sums))} | {minutes(whole)} | {minutes(along)} |\n"
    return HEAD + rows + last + told(total, sum(sums), whole)


def told(total: float, by_crates: float, whole: float) -> str:
    """The line behind a table."""
    beside = f", {minutes(max(total - by_crates, 0.0))} of them for `rt`, linking, and running programs and tests"
    taken = f"{minutes(total or by_crates)} processor minutes{beside if total else ''}"
    return f"\n{taken}, and {minutes(whole)} minutes by the clock.\n"
