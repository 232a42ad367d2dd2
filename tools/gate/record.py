"""What is written down beside a built program: from which sources it was built, when and with what."""
import dataclasses
import os
import platform
import shutil
import subprocess
import time

from gate import sources

NAME = "RECORD"


class NoRecord(Exception):
    """There is no record, or it isn't one."""


@dataclasses.dataclass(frozen=True)
class Record:
    """The lines of a record, in their order. `sources` and `program` are checksums."""

    sources: str
    program: str
    kit: str
    system: str
    built: str

    def text(self) -> str:
        """The record as it is written."""
        return "".join(f"{field}: {value}\n" for field, value in dataclasses.asdict(self).items())


def read(folder: str) -> Record:
    """The record of a folder."""
    name = os.path.join(os.path.basename(folder), NAME)
    try:
        with open(os.path.join(folder, NAME), encoding="utf-8") as file:
            lines = [line.rstrip("\n").partition(": ") for line in file]
        return Record(**{field: value for field, _, value in lines})
    except OSError as error:
        raise NoRecord(f"{name} can't be read: {error.strerror}") from error
    except (TypeError, UnicodeDecodeError) as error:
        raise NoRecord(f"{name} is no record of a program: {error}") from error


def of(program: str, sources_sum: str) -> Record:
    """The record of a program that was built just now from sources with this checksum."""
    return Record(
        sources=sources_sum,
        program=sources.checksum_of_file(program),
        kit=kit() or "unknown",
        system=system(),
        built=time.strftime("%Y-%m-%d %H:%M UTC", time.gmtime()),
    )


def kit() -> str | None:
    """The toolchain's identity, where there is one."""
    if not shutil.which("rt"):
        return None
    return subprocess.run(["rt", "version"], stdout=subprocess.PIPE, text=True, check=True).stdout.strip()


def system() -> str:
    """The system that this runs on, with the version of its C library."""
    try:
        name = platform.freedesktop_os_release().get("PRETTY_NAME", platform.system())
    except OSError:
        name = platform.system()
    return f"{name}, {' '.join(platform.libc_ver())}, {platform.machine()}"


def place(program: str, record: Record, folder: str) -> None:
    """Puts a program and its record into a folder, the program first and each whole."""
    os.makedirs(folder, exist_ok=True)
    to = os.path.join(folder, sources.PROGRAM)
    shutil.copyfile(program, to + ".new")
    os.chmod(to + ".new", 0o755)
    os.replace(to + ".new", to)
    with open(os.path.join(folder, NAME + ".new"), "w", encoding="utf-8") as file:
        file.write(record.text())
    os.replace(os.path.join(folder, NAME + ".new"), os.path.join(folder, NAME))
