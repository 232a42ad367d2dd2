"""Runs checks, and judges what each of them says."""
import concurrent.futures
import dataclasses
import os
import re
import signal
import subprocess
import sys
import time
from collections.abc import Iterable

PASSED, FAILED, SKIPPED = "passed", "failed", "skipped"
LAST = re.compile(r"(?:\S+: )?(\d+) passed, (\d+) failed$")
SKIP = re.compile(r"\S+: skipped, (.+)$")
# tools that a machine may lack; for no other reason a check may be skipped
MAY_LACK = ("STX_ORACLE", "Neovim", "nvim", "strace")


@dataclasses.dataclass(frozen=True)
class Result:
    """What came of a check: its kind, why it failed or was skipped, and the seconds that it took."""

    name: str
    kind: str
    why: str = ""
    seconds: float = 0.0

    def line(self) -> str:
        """The result as a line of the summary."""
        return f"{self.kind:8}{self.seconds:6.1f} s  {self.name}{': ' if self.why else ''}{self.why}"


def judged(status: int, output: str) -> tuple[str, str]:
    """The kind of a check's answer, and why it isn't `passed`: the status and the last line have to agree."""
    last = (output.rstrip().splitlines() or [""])[-1]
    counts, skip = LAST.match(last), SKIP.match(last)
    if status != 0:
        return FAILED, f"its status is {status}"
    if skip:
        if skip[1].startswith(MAY_LACK):
            return SKIPPED, skip[1]
        return FAILED, f"it was skipped, but not for a tool that isn't there: {skip[1]}"
    if not counts:
        return FAILED, "it doesn't end with a line `N passed, M failed`"
    if counts[2] != "0":
        return FAILED, f"{counts[2]} failed"
    return (PASSED, "") if counts[1] != "0" else (FAILED, "it tried nothing")


def run(command: str, seconds: float) -> Result:
    """Runs a check, shows what it writes, and judges it. One that doesn't end in its time fails."""
    name = os.path.basename(command)
    began = time.monotonic()
    with subprocess.Popen(
        [command],
        stdin=subprocess.DEVNULL,
        stdout=subprocess.PIPE,
        stderr=subprocess.STDOUT,
        text=True,
        errors="replace",
        start_new_session=True,
    ) as process:
        try:
            output, _ = process.communicate(timeout=max(seconds, 0.1))
            kind, why = judged(process.returncode, output)
        except subprocess.TimeoutExpired:
            os.killpg(process.pid, signal.SIGKILL)
            output, _ = process.communicate()
            kind, why = FAILED, f"it hadn't ended after {seconds:.0f} seconds"
    sys.stdout.write(output)
    sys.stdout.flush()
    return Result(name, kind, why, time.monotonic() - began)


def run_all(commands: Iterable[str], ends: float, most: float, lanes: int = 1) -> list[Result]:
    """Runs checks in so many lanes, each check for at most so many seconds, and all of them up to a moment."""
    with concurrent.futures.ThreadPoolExecutor(lanes) as pool:
        return list(pool.map(lambda command: run(command, min(most, ends - time.monotonic())), commands))


def summary(results: list[Result]) -> int:
    """Prints a line for each result and the counts, and gives the status."""
    print("\n".join(result.line() for result in results))
    count = {kind: sum(result.kind == kind for result in results) for kind in (PASSED, FAILED, SKIPPED)}
    if count[SKIPPED]:
        print(f"check: {count[SKIPPED]} skipped, as told above")
    print(f"check: {count[PASSED]} passed, {count[FAILED]} failed")
    return 0 if count[PASSED] and not count[FAILED] else 1
