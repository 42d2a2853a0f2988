"""How a check fails, and what was sent and came before it failed."""
from __future__ import annotations

from collections import deque
from typing import NoReturn

# The last exchanges of this process with the program, which the report of a failure shows.
EXCHANGES: deque[str] = deque(maxlen=6)


def short(data: object, most: int = 600) -> str:
    """A value as a failure shows it: both ends, where it is long."""
    text = repr(data)
    if len(text) <= most:
        return text
    return f"{text[: most // 2]} .. {text[-most // 2 :]} ({len(text)} characters)"


def note(what: str, sent: object, came: object) -> None:
    """Keeps an exchange for the report of a failure."""
    EXCHANGES.append(f"{what}\n    sent {short(sent)}\n    came {short(came)}")


def fail(text: str) -> NoReturn:
    raise AssertionError(text)


def first_difference(found: bytes | str, wanted: bytes | str) -> int:
    pairs = enumerate(zip(found, wanted))
    return next(
        (place for place, (one, other) in pairs if one != other), min(len(found), len(wanted))
    )


def expect(found: object, wanted: object, what: str) -> None:
    """They are equal; else the failure shows both around the first place where they differ."""
    if found == wanted:
        return
    if isinstance(found, bytes) and isinstance(wanted, bytes):
        place = first_difference(found, wanted)
        begin = max(0, place - 200)
        fail(
            f"{what}: {len(found)} bytes came in place of {len(wanted)}, others from {place} on\n"
            f"    wanted {wanted[begin : place + 300]!r}\n    came   {found[begin : place + 300]!r}"
        )
    fail(f"{what}:\n    wanted {short(wanted, 2000)}\n    came   {short(found, 2000)}")
