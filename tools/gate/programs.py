"""Which built program is that of the checkout."""
import os

from gate import record, sources

RELEASE = "release"
BUILT = os.path.join("out", "built")


def problem(top: str, folder: str, sources_sum: str | None = None) -> str | None:
    """Why the program of a folder, whole and executable, isn't the checkout's, or None where it is."""
    program = os.path.join(top, folder, sources.PROGRAM)
    try:
        found = record.read(os.path.join(top, folder))
    except record.NoRecord as error:
        return str(error)
    if found.sources != (sources_sum or sources.checksum(top)):
        return f"{folder}/{sources.PROGRAM} was built from other sources than the checkout's"
    if not os.access(program, os.X_OK):
        return f"{folder}/{sources.PROGRAM} isn't there, or can't be run"
    if sources.checksum_of_file(program) != found.program:
        return f"{folder}/{sources.PROGRAM} isn't the program that {folder}/{record.NAME} is of"
    return None


def current(top: str) -> str | None:
    """The program of the checkout's sources, in release/ or as tools/build left it, where there is one."""
    sources_sum = sources.checksum(top)
    for folder in (RELEASE, BUILT):
        if problem(top, folder, sources_sum) is None:
            return os.path.join(top, folder, sources.PROGRAM)
    return None
