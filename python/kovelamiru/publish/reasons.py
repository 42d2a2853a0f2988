"""Why dbx and the level changed, in officers' words: of --public-reasons alone."""
from __future__ import annotations

from html import escape
from typing import Iterator

from ..reasons import reasons_in
from ..sentences import Minute, counts, minute


def calls_of(lines: list[str], word: str) -> Iterator[Minute]:
    """Those that begin with this word."""
    return filter(None, (minute(line) for line in lines if f"\t{word} " in line))


def confirmed(minutes: bytes, before: int) -> list[tuple[str, list[str]]]:
    """What each Confirm behind so many calls put into force, and the reasons of its proposal, if
    it has any. No name is in it."""
    lines = minutes.decode("ascii", "replace").splitlines()
    reasons = reasons_in(calls_of(lines, "explain"))
    found = []
    for call in calls_of(lines[before:], "confirm"):
        given = reasons.get(int(call.said.values["PROPOSAL"]), []) if call.said else []
        if call.said and given:
            found.append((counts("NEW", call.said), [one.text for one in given]))
    return found


def why(minutes: bytes, before: int) -> list[str]:
    """The same as markup; nothing where nobody said why."""
    rows = [f"<li>{escape(what)}: {escape('; '.join(reasons))}</li>"
            for what, reasons in confirmed(minutes, before)]
    return ["<h2>Why</h2>", "<ul>", *rows, "</ul>"] if rows else []
