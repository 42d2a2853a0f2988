"""What a caller saw of a desk last: it tells a desk that went on from one that lost its last calls,
as a restored one, or a promoted standby."""
from __future__ import annotations

import hashlib
import json
import os
from dataclasses import dataclass

from ..answers import Me
from ..faults import Stop
from ..files import folder_of, fresh
from ..minutes import minutes_from
from ..waiting import changes_of
from .run import OTHER_DESK, Run


@dataclass(frozen=True)
class Seen:
    """How many calls, or changes of what is shown to a submitter; for officers the SHA-256 of the
    last call's line."""

    count: int = 0
    line: str = ""


def lost(me: Me, count: int) -> str:
    what = "change" if me.role == "submitter" else "call"
    return (f"deskctl: {OTHER_DESK[:-1]}: {what} {count} of those that you saw isn't there any"
            " more.")


def seen_in(path: str) -> Seen:
    try:
        with open(path, encoding="utf-8") as file:
            found = json.load(file)
        return Seen(int(found["count"]), str(found["line"]))
    except (OSError, ValueError, KeyError, TypeError):
        return Seen()


def of_lines(run: Run, last: Seen, changes: int) -> tuple[Seen, bool]:
    """What an officer sees now, and whether the last line that they saw is there."""
    first = last.count if 0 < last.count <= changes else changes
    rows = minutes_from(run.desk, first).splitlines(keepends=True)
    there = first != last.count or not last.line or last.line == digest(rows[:1])
    if first + len(rows) <= changes:
        first, rows = changes, minutes_from(run.desk, changes).splitlines(keepends=True)
    return Seen(first + len(rows) - 1, digest(rows[-1:])), there


def digest(lines: list[bytes]) -> str:
    return hashlib.sha256(b"".join(lines)).hexdigest()


def noticed(run: Run, me: Me) -> None:
    """Says it, once, where what was seen last is gone."""
    changes = changes_of(run.desk)
    folder = os.path.join(folder_of("XDG_STATE_HOME", ".local/state"), "deskctl-seen")
    path = os.path.join(folder, f"{run.desk.caller}.json")
    last, now, there = seen_in(path), Seen(changes), True
    if me.role == "officer" and changes:
        now, there = of_lines(run, last, changes)
    if changes < last.count or not there:
        run.terminal.warn(lost(me, last.count))
    if now != last:
        try:
            os.makedirs(folder, mode=0o700, exist_ok=True)
            fresh(path, json.dumps({"count": now.count, "line": now.line}).encode())
        except (OSError, Stop):
            # (what can't be remembered isn't noticed next time)
            pass
