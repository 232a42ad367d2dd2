"""Scratch checkouts, in which the tools are tried: a few sources, this checkout's tools, and a stand-in for `rt`."""
import contextlib
import os
import shlex
import shutil
import stat
import subprocess
import sys
import tempfile
from collections.abc import Iterator, Mapping

from gate import sources

SOURCES = {
    "crates.txt": "# name: what it stands on\nlow:\nstx: low clap\nbeside: low\n",
    "HANDLES": "Handles allowed: none.\n",
    "crates/low/src/lib.rt": "// low\n",
    "crates/low/specs/Lib.antt": "-- low\n",
    "crates/low/must-fail/one.edit": "file: src/lib.rt\n",
    "crates/stx/src/main.rt": "// stx\n",
    "crates/beside/src/lib.rt": "// beside\n",
}

# the stand-in proves each crate of crates.txt, and what it builds prints the sources that it was built from
RT = """#!/bin/sh
case "$1" in
    version) echo 'stand-in kit' ;;
    ci)
        [ -z "$STAND_IN_FAILS" ] || { echo 'rt: low NOT PROVED'; echo '2 passed, 1 failed'; exit 1; }
        how=${STAND_IN_SAYS-proved}
        for crate in $(sed -n 's/^\\([a-z]*\\):.*/\\1/p' crates.txt); do echo "rt: $crate $how"; done
        [ -z "$STAND_IN_LEAVES_NONE" ] || { echo '3 passed, 0 failed'; exit 0; }
        mkdir -p crates/stx/out
        {
            echo '#!/bin/sh'; echo "# $STAND_IN_MARK"; echo 'echo ran "$@"'
            sed 's/^/# /' crates/low/src/* crates/stx/src/*
        } >crates/stx/out/stx
        chmod +x crates/stx/out/stx
        echo '3 passed, 0 failed'
        ;;
esac
"""


class Checkout:
    """A scratch checkout, and how its commands are run."""

    def __init__(self, top: str, room: str) -> None:
        self.top = top
        self.room = room

    def write(self, name: str, text: str) -> None:
        """Writes a file of the checkout. What is a script can be run."""
        path = os.path.join(self.top, name)
        os.makedirs(os.path.dirname(path), exist_ok=True)
        with open(path, "w", encoding="utf-8") as file:
            file.write(text)
        if text.startswith("#!"):
            os.chmod(path, stat.S_IRWXU)

    def run(self, *words: str, env: Mapping[str, str] | None = None, has_rt: bool = True) -> tuple[int, str]:
        """The status of a command of the checkout, and what it writes to both outputs."""
        path = os.environ["PATH"] if has_rt else self.path_without_rt()
        path = os.path.join(self.room, "bin") + ":" + path if has_rt else path
        run = subprocess.run(
            [os.path.join(self.top, words[0]), *words[1:]],
            cwd=self.top,
            env={"PATH": path, "HOME": self.room, "TMPDIR": self.room, **(env or {})},
            stdin=subprocess.DEVNULL,
            stdout=subprocess.PIPE,
            stderr=subprocess.STDOUT,
            text=True,
            check=False,
        )
        return run.returncode, run.stdout

    def path_without_rt(self) -> str:
        """The folders in which commands are looked for, without those that have the toolchain; Python is there."""
        folders = [os.path.join(self.room, "python"), *os.environ["PATH"].split(":")]
        return ":".join(folder for folder in folders if not os.path.exists(os.path.join(folder, "rt")))


@contextlib.contextmanager
def checkout() -> Iterator[Checkout]:
    """A scratch checkout that goes when it is done with. It has these tools, but no check."""
    with tempfile.TemporaryDirectory(prefix="stx-scratch-") as room:
        top = os.path.join(room, "checkout")
        ignored = shutil.ignore_patterns("check-*", "compare-*", "__pycache__")
        shutil.copytree(os.path.join(sources.TOP, "tools"), os.path.join(top, "tools"), ignore=ignored)
        shutil.copytree(os.path.join(sources.TOP, ".ci"), os.path.join(top, ".ci"))
        shutil.copy2(os.path.join(sources.TOP, "stx"), os.path.join(top, "stx"))
        made = Checkout(top, room)
        for name, text in SOURCES.items():
            made.write(name, text)
        made.write("../bin/rt", RT)
        made.write("../python/python3", f'#!/bin/sh\nexec {shlex.quote(sys.executable)} "$@"\n')
        yield made
