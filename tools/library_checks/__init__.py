"""Checks of the library, of tools/link and of tools/test. Each check is a name with what is wrong, or None.

    files      what the library's files have to be
    suites     the library's own tests
    linker     what tools/link makes of small programs
    runner     what tools/test says of small programs
"""
from __future__ import annotations

Check = tuple[str, str | None]
"""What was checked, and what is wrong with it."""


def equal(what: str, found: object, wanted: object) -> Check:
    """Whether something is as it has to be."""
    return what, None if found == wanted else "wanted %r\n    found  %r" % (wanted, found)
