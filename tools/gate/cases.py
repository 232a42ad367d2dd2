"""Cases of a check, each a function that raises an AssertionError where something comes out otherwise."""
import concurrent.futures
import os
import traceback
from collections.abc import Callable, Iterable

Case = Callable[[], None]


def is_same(what: str, found: object, wanted: object) -> None:
    """Asserts that something is what it has to be."""
    assert found == wanted, f"{what}: wanted {wanted!r}, and found {found!r}"


def has(text: str, part: str) -> None:
    """Asserts that a text has a part."""
    assert part in text, f"wanted {part!r} in {text!r}"


def difference(case: Case) -> str | None:
    """How something comes out otherwise in a case, or None."""
    try:
        case()
    except AssertionError as error:
        return f"{case.__name__}: {error}"
    except Exception:
        return f"{case.__name__}:\n{traceback.format_exc()}"
    return None


def tried(name: str, cases: Iterable[Case]) -> int:
    """Runs the cases of a check side by side, says which fail and how many pass, and gives the status."""
    with concurrent.futures.ThreadPoolExecutor(os.cpu_count()) as pool:
        found = list(pool.map(difference, cases))
    failed = [one for one in found if one]
    print("".join(f"{name}: {one}\n" for one in failed), end="")
    print(f"{name}: {len(found) - len(failed)} passed, {len(failed)} failed")
    return 0 if found and not failed else 1
