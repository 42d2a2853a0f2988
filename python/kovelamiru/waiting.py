"""What waits for somebody at a desk, by the desk's own answer."""
from __future__ import annotations

import datetime
import re
from dataclasses import dataclass
from typing import Any, Iterable

from .answers import Me, Request, said_number, shaped
from .desk import Desk
from .journal import now
from .minutes import minutes_from
from .sentences import Minute, minute
from .words import counted

# So many yes approve a request.
NEEDED = 2
# The states in which a request goes on.
UNDER_WAY = ("open", "approved")
# A part of the minutes has so many lines at most.
PART = 1000


@dataclass(frozen=True)
class Waiting:
    """What waits for the caller, and their own requests that are under way, as the desk's JSON."""

    requests: list[dict[str, Any]]
    proposals: list[dict[str, Any]]


def waiting_of(desk: Desk) -> Waiting:
    return shaped(Waiting, desk.get("/waiting").object())


def own_proposals(desk: Desk, me: Me) -> list[dict[str, Any]]:
    """An officer's own open proposals, which wait for another officer."""
    return [value for value in desk.listed("/proposals")
            if value.get("state") == "open" and value.get("officer") == me.name]


def changes_of(desk: Desk) -> int:
    """A number that changes with what the caller is shown of requests and proposals."""
    return said_number(desk.get("/changes").object(), "changes")


def yes_words(one: Request) -> str:
    """How many yes a request has, and whose."""
    whose = [vote["reviewer"] for vote in one.votes if vote["vote"] == "yes"]
    return f"{len(whose)} of {NEEDED} yes" + (f", by {', '.join(whose)}" if whose else "")


def last_calls(desk: Desk) -> list[Minute]:
    """The desk's last calls."""
    first = max(changes_of(desk) - PART + 1, 1)
    lines = minutes_from(desk, first).decode("ascii", "replace").splitlines()
    return list(filter(None, map(minute, lines)))


def ages_in(calls: Iterable[Minute]) -> dict[int, str]:
    """How long ago each proposal of the calls was made, by the clock of whoever made its key."""
    made = [(call, re.fullmatch("proposed ([0-9]+)", call.reply)) for call in calls]
    return {int(number[1]): age(call.time()) for call, number in made if number and call.time()}


def age(time: str) -> str:
    """How long ago it was."""
    try:
        then = datetime.datetime.strptime(f"{time}Z", "%Y-%m-%d %H:%M:%S%z")
    except ValueError:
        return "-"
    minutes = max(int((now() - then).total_seconds()) // 60, 0)
    for size, name in ((1440, "day"), (60, "hour")):
        if minutes >= size:
            return counted(minutes // size, name)
    return counted(minutes, "minute")
