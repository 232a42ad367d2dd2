"""The sources that the built program depends on, and one checksum of them."""
import hashlib
import os
from collections.abc import Iterator

TOP = os.path.dirname(os.path.dirname(os.path.dirname(os.path.abspath(__file__))))
PROGRAM = "stx"
PARTS = ("src", "specs", "proofs")
DIGEST_BYTES = 32


def crates_of(top: str) -> dict[str, str]:
    """The lines of crates.txt by the names of their crates."""
    with open(os.path.join(top, "crates.txt"), encoding="utf-8") as file:
        lines = [line.partition("#")[0].strip() for line in file]
    return {line.partition(":")[0].split()[0]: line for line in lines if line}


def stands_on(crates: dict[str, str], name: str) -> list[str]:
    """The crates that a crate's line names; a library of the toolchain is none."""
    return [word for word in crates[name].partition(":")[2].split() if word in crates]


def crates_below(crates: dict[str, str], name: str) -> list[str]:
    """A crate and all below it, in the order of their names."""
    found: set[str] = set()
    left = [name]
    while left:
        crate = left.pop()
        if crate not in found:
            found.add(crate)
            left += stands_on(crates, crate)
    return sorted(found)


def files_of(top: str, crate: str) -> Iterator[str]:
    """The files of a crate's parts, as paths from the top, in order."""
    for part in PARTS:
        for at, folders, files in os.walk(os.path.join(top, "crates", crate, part)):
            folders.sort()
            for name in sorted(files):
                yield os.path.relpath(os.path.join(at, name), top)


def texts(top: str) -> Iterator[tuple[str, bytes]]:
    """All that the program is built from, each text with its name: HANDLES, its crates' lines and their files."""
    handles = os.path.join(top, "HANDLES")
    yield "HANDLES", content(handles) if os.path.exists(handles) else b""
    crates = crates_of(top)
    names = crates_below(crates, PROGRAM)
    yield "crates.txt", "".join(crates[name] + "\n" for name in names).encode()
    for name in names:
        for file in files_of(top, name):
            yield file, content(os.path.join(top, file))


def content(path: str) -> bytes:
    """The bytes of a file."""
    with open(path, "rb") as file:
        return file.read()


def checksum(top: str) -> str:
    """The BLAKE2b checksum of all sources of a checkout: of each text its name, its length and its bytes."""
    found = hashlib.blake2b(digest_size=DIGEST_BYTES)
    for name, data in texts(top):
        found.update(f"{name} {len(data)}\n".encode())
        found.update(data)
    return found.hexdigest()


def checksum_of_file(path: str) -> str:
    """The BLAKE2b checksum of a file, as `b2sum -l 256` gives it."""
    return hashlib.blake2b(content(path), digest_size=DIGEST_BYTES).hexdigest()
