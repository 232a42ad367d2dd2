"""Proves and builds the program: `rt ci`, which checks crates side by side, over a copy of its sources alone."""
import os
import re
import shutil
import subprocess
import sys
import tempfile
import time

from gate import programs, record, sources

# what a build doesn't need of a crate: what earlier checks left, and edits that the prover must refuse
LEFT_OUT = ("out", "must-fail")
ENDED = re.compile(r"rt: (\w+) (proved|NOT PROVED|is kept)\b")


class NotBuilt(Exception):
    """The program couldn't be proved and built."""


def copy_sources(top: str, to: str) -> list[str]:
    """Makes a repository of the program's crates alone, and gives their names."""
    crates = sources.crates_of(top)
    names = sources.crates_below(crates, sources.PROGRAM)
    for name in names:
        inside = os.path.join("crates", name)
        shutil.copytree(os.path.join(top, inside), os.path.join(to, inside), ignore=shutil.ignore_patterns(*LEFT_OUT))
    with open(os.path.join(to, "crates.txt"), "w", encoding="utf-8") as file:
        file.write("".join(crates[name] + "\n" for name in names))
    if os.path.exists(os.path.join(top, "HANDLES")):
        shutil.copyfile(os.path.join(top, "HANDLES"), os.path.join(to, "HANDLES"))
    # `rt ci` wants the top of a repository
    os.mkdir(os.path.join(to, ".git"))
    return names


def say(text: str) -> None:
    """Tells how far it is."""
    print(f"{sources.PROGRAM}: {text}", file=sys.stderr, flush=True)


def follow(run: subprocess.Popen[str], log: str, count: int) -> None:
    """Keeps what a run of `rt ci` writes, and says of each crate when it is proved."""
    began = time.monotonic()
    done = 0
    with open(log, "w", encoding="utf-8") as kept:
        for line in run.stdout or ():
            kept.write(line)
            ended = ENDED.match(line)
            if ended:
                done += 1
                say(f"{done} of {count} crates, {(time.monotonic() - began) / 60:.1f} minutes: {ended[1]} {ended[2]}")


def proved(copy: str, log: str, count: int, words: list[str]) -> str:
    """Runs `rt ci` over a copy, and gives where the program stands that it built."""
    with subprocess.Popen(
        ["rt", "ci", *words],
        cwd=copy,
        stdin=subprocess.DEVNULL,
        stdout=subprocess.PIPE,
        stderr=subprocess.STDOUT,
        text=True,
        errors="replace",
    ) as run:
        follow(run, log, count)
    program = os.path.join(copy, "crates", sources.PROGRAM, "out", sources.PROGRAM)
    if run.returncode != 0 or not os.path.isfile(program):
        raise NotBuilt(f"it wasn't proved and built; {log} has what `rt ci` says")
    return program


def build(top: str, words: list[str]) -> str:
    """Proves and builds the program of a checkout, and gives where it stands. The words go to `rt ci`."""
    if not shutil.which("rt"):
        raise NotBuilt("no built program is of these sources, and the toolchain (rt), which builds one, isn't there")
    built = os.path.join(top, programs.BUILT)
    os.makedirs(built, exist_ok=True)
    with tempfile.TemporaryDirectory(prefix="stx-build-") as copy:
        count = len(copy_sources(top, copy))
        say(f"proving and building {count} crates, where it wasn't done before; from nothing it takes an hour")
        program = proved(copy, os.path.join(built, "log"), count, words)
        record.place(program, record.of(program, sources.checksum(copy)), built)
    if programs.problem(top, programs.BUILT):
        raise NotBuilt("sources changed while it was built: build it again")
    return os.path.join(built, sources.PROGRAM)
