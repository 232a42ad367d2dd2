"""Runs of the program for the server: checks of buffers, exports and runs, each of which a newer one can end."""
import contextlib
import dataclasses
import os
import re
import signal
import subprocess
import tempfile
from typing import BinaryIO

# the most that a run may write, in blocks of 512 bytes: 64 MiB
LONGEST_BLOCKS = 131_072
REFUSED = re.compile(r"stx: refused element (\d+) byte (\d+) (\w+)")


@dataclasses.dataclass(frozen=True)
class Refusal:
    """What is refused: the element's number, counted from 1, the byte of its text, and the reason."""

    element: int
    byte: int
    reason: str


@dataclasses.dataclass(frozen=True)
class Answer:
    """The status, output and report of a run of the program."""

    status: int
    output: bytes
    report: str


def end(run: subprocess.Popen[bytes]) -> None:
    """Ends a run with all that it started."""
    if run.poll() is None:
        with contextlib.suppress(ProcessLookupError):
            os.killpg(run.pid, signal.SIGKILL)


class Program:
    """The built program, as words of a command."""

    def __init__(self, words: list[str]):
        self.words = words
        self.running: set[subprocess.Popen[bytes]] = set()
        self.is_stopped = False

    def start(self, words: list[str], source: BinaryIO, output: BinaryIO) -> subprocess.Popen[bytes]:
        """Starts the program with these words, as a group of its own, which reads and writes files."""
        command = ["sh", "-c", f'ulimit -f {LONGEST_BLOCKS}; exec "$@"', "sh", *self.words, *words]
        return subprocess.Popen(
            command, stdin=source, stdout=output, stderr=subprocess.PIPE, start_new_session=True
        )

    def stop(self) -> None:
        """Ends all that runs, and what is just being started."""
        self.is_stopped = True
        for run in list(self.running):
            end(run)

    def answer(self, words: list[str], data: bytes, seconds: float | None = None) -> Answer | None:
        """What the program answers to this input, or None where it took longer."""
        # files, since a pipe would be filled piece by piece, each of which waits for what else runs here
        with tempfile.TemporaryFile() as source, tempfile.TemporaryFile() as output:
            source.write(data)
            source.seek(0)
            with self.start(words, source, output) as run:
                self.running.add(run)
                if self.is_stopped:
                    end(run)
                try:
                    _, report = run.communicate(timeout=seconds)
                except subprocess.TimeoutExpired:
                    end(run)
                    return None
                finally:
                    self.running.discard(run)
            output.seek(0)
            return Answer(run.returncode, output.read(), report.decode("utf-8", "replace"))

    def refusal(self, data: bytes) -> Refusal | None:
        """The first fault of a file, if it has one."""
        answer = self.answer(["check"], data)
        found = REFUSED.search(answer.report) if answer else None
        return Refusal(int(found[1]), int(found[2]), found[3]) if found else None
