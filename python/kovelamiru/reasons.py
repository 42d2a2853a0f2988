"""Why a proposal was made: the reasons that officers gave, by the minutes."""
from __future__ import annotations

from dataclasses import dataclass
from typing import Iterable, Sequence

from .desk import Desk
from .minutes import minutes_from
from .sentences import Minute, minute
from .waiting import PART, changes_of
from .words import cut, printable

# So many of the newest are shown, and of one in a list so many characters.
SHOWN, SHORT = 20, 40


@dataclass(frozen=True)
class Reason:
    """What an officer said of a proposal, and when, by the clock of whoever made the key."""

    officer: str
    time: str
    text: str


def reasons_in(calls: Iterable[Minute]) -> dict[int, list[Reason]]:
    """Those of each proposal that the calls explain, in their order."""
    found: dict[int, list[Reason]] = {}
    for call in calls:
        if call.said and call.said.has("REASON"):
            one = Reason(call.caller, call.time(), call.said.values["REASON"])
            found.setdefault(int(call.said.values["PROPOSAL"]), []).append(one)
    return found


def reasons_of(desk: Desk, number: int) -> list[Reason]:
    """Those of a proposal: the newest lines first, back to the call that made it."""
    found: list[Reason] = []
    last, made = changes_of(desk), f"\tproposed {number}"
    while last > 0:
        first = max(last - PART + 1, 1)
        lines = minutes_from(desk, first).decode("ascii", "replace").splitlines()[:last - first + 1]
        own = (minute(line) for line in lines if f"\texplain {number} " in line)
        found = reasons_in(filter(None, own)).get(number, []) + found
        last = 0 if any(line.endswith(made) for line in lines) else first - 1
    return found


def reason_lines(reasons: Sequence[Reason]) -> list[str]:
    """A reason a line, with who gave it and when."""
    more = [f"{len(reasons) - SHOWN} older ones: deskctl minutes"] if len(reasons) > SHOWN else []
    return more + [f"{', '.join(filter(None, [one.officer, one.time]))}: {one.text}"
                   for one in reasons[-SHOWN:]]


def with_reason(names: str, reasons: Sequence[Reason]) -> str:
    """What a proposal names, and the newest reason in short, as a list has it."""
    return f"{names}: {cut(printable(reasons[-1].text), SHORT)}" if reasons else names
