"""What a run of `rt ci` left: whether the program that it built is the one in release/."""
import os
import re

from gate import programs, sources

IS_PROVED = re.compile(rf"^rt: {sources.PROGRAM} proved$", re.MULTILINE)
IS_KEPT = re.compile(rf"^rt: {sources.PROGRAM} is kept\b", re.MULTILINE)


def difference(top: str, log: str, since: float) -> tuple[str | None, str]:
    """How the program that a run built differs from the one in release/ or None, and what there is to say.

    The log is what the run wrote, and it began at that second. A program that is kept of an earlier run was built from
    the same sources, so it is compared too where it is there.
    """
    said = sources.content(log).decode(errors="replace")
    program = os.path.join(top, "crates", sources.PROGRAM, "out", sources.PROGRAM)
    is_there = os.path.isfile(program) and os.stat(program).st_mtime >= int(since)
    is_built, is_kept = bool(IS_PROVED.search(said)), bool(IS_KEPT.search(said))
    if not is_built and not is_kept:
        return f"the log doesn't say that {sources.PROGRAM} was proved, or is kept", ""
    if not is_there:
        if is_built:
            return "this run built a program, but left none", ""
        return None, "nothing was built, since all proofs were kept"
    kept = "nothing was built, since all proofs were kept; the kept program"
    what = "the program that this run built" if is_built else kept
    release = os.path.join(top, programs.RELEASE, sources.PROGRAM)
    if not os.path.isfile(release) or sources.content(release) != sources.content(program):
        return f"{what} isn't {release}", ""
    return None, f"{what} is the one in {programs.RELEASE}/, byte for byte"
