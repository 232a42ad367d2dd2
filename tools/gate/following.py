"""Follows a run of `rt ci`: stamps what it writes, and the processes of the prover that run below it."""
import os
import resource
import subprocess
import sys
import threading
import time
from typing import TextIO

from gate import stamps

TICKS = os.sysconf("SC_CLK_TCK")
# how often processes are looked at, in seconds
PERIOD = 1.0
# where `rt ci` checks a copy of a crate with an edit
EDIT_FOLDER = "rt-edit"

ProcessKey = tuple[int, int]


def stat_of(process: int) -> tuple[int, int, float] | None:
    """A process's parent, when it began, and the processor seconds of it and of those below it that ended."""
    try:
        with open(f"/proc/{process}/stat", encoding="utf-8", errors="replace") as file:
            fields = file.read().rpartition(")")[2].split()
    except OSError:
        return None
    return int(fields[1]), int(fields[19]), sum(int(ticks) for ticks in fields[11:15]) / TICKS


def label_of(process: int) -> str | None:
    """The crate that a process of the prover checks and for what, or None for any other process."""
    try:
        with open(f"/proc/{process}/cmdline", "rb") as file:
            words = file.read().decode(errors="replace").split("\0")
        folder = os.readlink(f"/proc/{process}/cwd")
    except OSError:
        return None
    if "--crate-name" not in words[:-1] or not any(os.path.basename(word) == "rattle" for word in words):
        return None
    kind = stamps.EDITS if os.path.basename(folder).startswith(EDIT_FOLDER) else stamps.PROOF
    kind = stamps.TESTS if "--test" in words else kind
    return f"{words[words.index('--crate-name') + 1]} {kind}"


class Watch:
    """The processes of the prover below a process, each with what it was last seen to have taken."""

    def __init__(self, top: int) -> None:
        self.top = top
        self.labels: dict[ProcessKey, str] = {}
        self.taken: dict[ProcessKey, float] = {}

    def look(self) -> tuple[list[ProcessKey], list[ProcessKey]]:
        """Looks at all processes once, and gives those of the prover that are new, and those that ended."""
        stats = {int(name): stat for name in os.listdir("/proc") if name.isdigit() and (stat := stat_of(int(name)))}
        seen: dict[ProcessKey, float] = {}
        for process, (_, _, processor) in stats.items():
            owner = self.owner(process, stats)
            if owner:
                seen[owner] = seen.get(owner, 0.0) + processor
        new = [key for key in seen if key not in self.taken]
        ended = [key for key in self.taken if key not in seen]
        for key, processor in seen.items():
            self.taken[key] = max(processor, self.taken.get(key, 0.0))
        return new, ended

    def owner(self, process: int, stats: dict[int, tuple[int, int, float]]) -> ProcessKey | None:
        """The highest process of the prover that a process below the top is, or stands under."""
        line = []
        while process in stats and process != self.top:
            line.append((process, stats[process][1]))
            process = stats[process][0]
        return next((key for key in reversed(line) if self.is_prover(key)), None) if process == self.top else None

    def is_prover(self, key: ProcessKey) -> bool:
        """Whether a process is the prover's, and its label is known then."""
        label = self.labels.get(key) or label_of(key[0])
        if label:
            self.labels[key] = label
        return bool(label)


class Log:
    """A stamped log that is written as the run goes, by several threads."""

    def __init__(self, file: TextIO) -> None:
        self.file = file
        self.began = time.monotonic()
        self.alone = threading.Lock()

    def write(self, kind: str, text: str) -> None:
        """Writes a stamp of now."""
        with self.alone:
            self.file.write(stamps.Stamp(time.monotonic() - self.began, kind, text).line())
            self.file.flush()


def watch(log: Log, process: int, ended: threading.Event) -> None:
    """Stamps the prover's processes until the run has ended."""
    seen = Watch(process)
    is_last = False
    while not is_last:
        is_last = ended.wait(PERIOD)
        new, gone = seen.look()
        for key in new:
            log.write(stamps.BEGAN, f"{key[0]}.{key[1]} {seen.labels[key]}")
        for key in gone:
            log.write(stamps.ENDED, f"{key[0]}.{key[1]} {seen.labels[key]} {seen.taken.pop(key):.2f}")


def follow(words: list[str], file: TextIO) -> int:
    """Runs a command, shows what it writes, stamps it into a log, and gives the command's status."""
    log = Log(file)
    ended = threading.Event()
    with subprocess.Popen(words, stdout=subprocess.PIPE, stderr=subprocess.STDOUT, text=True, errors="replace") as run:
        watching = threading.Thread(target=watch, args=(log, run.pid, ended))
        watching.start()
        for line in run.stdout or ():
            log.write(stamps.SAID, line.rstrip("\n"))
            sys.stdout.write(line)
            sys.stdout.flush()
    ended.set()
    watching.join()
    used = resource.getrusage(resource.RUSAGE_CHILDREN)
    log.write(stamps.TOTAL, f"{used.ru_utime + used.ru_stime:.2f}")
    return run.returncode
