"""The commands 'run' and 'run tests': they run a buffer under limits, and show what came of it, while the editor goes on."""
import dataclasses
import os
import shlex
import signal
import tempfile
import threading
import urllib.parse
from collections.abc import Callable

from serving.buffers import Buffer
from serving.checking import Answer, Program

RUN = "stx.run"
RUN_TESTS = "stx.runTests"
LIMITS = ("--steps", "100000000", "--depth", "100000", "--cells", "16777216")
SECONDS = 60.0
LONGEST = 64 * 1024
TOP = os.path.dirname(os.path.dirname(os.path.dirname(os.path.abspath(__file__))))


def shown(title: str, answer: Answer | None) -> str:
    """What is shown of a run: the Transcript, then the report, then how it ended."""
    if answer is None:
        return "%s: stopped after %g seconds" % (title, SECONDS)
    output = answer.output.decode("utf-8", "replace")
    if len(output) > LONGEST:
        output = output[:LONGEST] + "\n… (%d bytes in all)" % len(answer.output)
    end = "ended well" if answer.status == 0 else "ended with status %d" % answer.status
    if answer.status == -signal.SIGXFSZ:
        end = "stopped, since it wrote more than is kept"
    parts = [part for part in (output.rstrip("\n"), answer.report.rstrip("\n")) if part]
    return "\n".join(["%s: %s" % (title, end), *parts])


def name_of(uri: str) -> str:
    """The name under which a buffer's tests are shown: that of its file, without folders."""
    name = os.path.basename(urllib.parse.unquote(urllib.parse.urlsplit(uri).path))
    return name if name.endswith(".sif") else "tests.sif"


def run_tests(runner: Program, buffer: Buffer) -> Answer | None:
    """What the test runner answers for this buffer."""
    with tempfile.TemporaryDirectory() as folder:
        name = os.path.join(folder, name_of(buffer.uri))
        with open(name, "wb") as file:
            file.write(buffer.bytes)
        answer = runner.answer(["--quiet", *LIMITS, name], b"", SECONDS)
    place = os.path.join(folder, "").encode()
    return answer and dataclasses.replace(answer, output=answer.output.replace(place, b""))


class Commands:
    """Runs at most one command at a time, beside the server's loop."""

    def __init__(self, program: Program, show: Callable[[str], None]):
        self.program = program
        self.tests = Program([os.path.join(TOP, "tools", "test"), "--stx", shlex.join(program.words)])
        self.show = show
        self.turn = threading.Lock()

    def start(self, command: str, buffer: Buffer) -> bool:
        """Starts a command on a buffer; False where one runs already."""
        if not self.turn.acquire(blocking=False):
            return False
        threading.Thread(target=self.run, args=(command, buffer), daemon=True).start()
        return True

    def stop(self) -> None:
        """Ends what runs."""
        self.program.stop()
        self.tests.stop()

    def run(self, command: str, buffer: Buffer) -> None:
        """Runs a command to its end."""
        try:
            self.show(self.told(command, buffer))
        finally:
            self.turn.release()

    def told(self, command: str, buffer: Buffer) -> str:
        """What a command comes to, in words."""
        try:
            if command == RUN_TESTS:
                return shown("tests", run_tests(self.tests, buffer))
            return shown("run", self.program.answer(["run", *LIMITS], buffer.bytes, SECONDS))
        except OSError as fault:
            return "%s: %s" % (command, fault)
