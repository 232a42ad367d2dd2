"""Runs the converter and the program."""
from __future__ import annotations

import subprocess
import sys
import tempfile
from dataclasses import dataclass
from pathlib import Path

from fileouts.command import converted

TOOLS = Path(__file__).resolve().parents[1]


@dataclass
class Converted:
    """What a run of the converter gave."""

    status: int
    out: bytes
    report: str


def convert(words: list[str]) -> Converted:
    """Converts, in this process."""
    result, lines = converted(words)
    return Converted(1 if result is None else 0, result or b"", "".join(line + "\n" for line in lines))


def convert_text(text: bytes, words: list[str], name: str = "F.st") -> Converted:
    """Converts a file of that name with some words before it. Reports have its name alone."""
    with tempfile.TemporaryDirectory() as folder:
        path = Path(folder) / name
        path.write_bytes(text)
        found = convert([*words, str(path)])
    return Converted(found.status, found.out, found.report.replace(folder + "/", ""))


def run_tool(words: list[str]) -> Converted:
    """Runs tools/convert as a program of its own."""
    done = subprocess.run([sys.executable, str(TOOLS / "convert"), *words], stdin=subprocess.DEVNULL,
                          stdout=subprocess.PIPE, stderr=subprocess.PIPE, check=False)
    return Converted(done.returncode, done.stdout, done.stderr.decode("utf-8", "surrogateescape"))


def run(command: list[str], word: str, text: bytes) -> bytes:
    """What the program writes and reports of an interchange file."""
    done = subprocess.run([*command, word], input=text, stdout=subprocess.PIPE, stderr=subprocess.STDOUT, check=False)
    return done.stdout
