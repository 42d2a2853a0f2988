"""What completes a line of deskctl. `deskctl complete WORD..`, which is for shells, prints what may
stand in the last word's place, each with what it does behind a tab; or FILES."""
from __future__ import annotations

from typing import Any, Iterator, Sequence

from .arguments import OPTIONS, Word
from .commands import COMMANDS

FILES = "FILES"
Rows = list[tuple[str, str]]


def takes_value(more: dict[str, Any]) -> bool:
    return not str(more.get("action", "")).startswith("store_")


def values_of(more: dict[str, Any]) -> Rows:
    """What a word is chosen from: its choices, files, or nothing that is known."""
    if "choices" in more:
        return [(choice, "") for choice in more["choices"]]
    meta = str(more.get("metavar", ""))
    return [(FILES, "")] if "FILE" in meta or "IMAGE" in meta else []


def options_in(words: Sequence[Word]) -> dict[str, dict[str, Any]]:
    return {name: more for names, more in words for name in names if name.startswith("-")}


def completions(words: Sequence[str]) -> Rows:
    """The rows for the last of these words."""
    known, command, at = options_in(OPTIONS), None, 0
    rest: Iterator[str] = iter(words[:-1])
    for word in rest:
        if word in known and takes_value(known[word]):
            if next(rest, None) is None:
                return values_of(known[word])
        elif command is None and not word.startswith("-"):
            command = next((one for one in COMMANDS if one.name == word), None)
            known = {**(options_in(command.words) if command else {}), **known}
        elif not word.startswith("-"):
            at += 1
    if words[-1:] and words[-1].startswith("-"):
        return [(name, str(more["help"])) for name, more in known.items()] + [("--help", "")]
    if command is None:
        return [(one.name, one.does) for one in COMMANDS] + [("help", "")]
    places = [more for names, more in command.words if not names[0].startswith("-")]
    if any(more.get("nargs") in ("+", "*") for more in places) and at:
        return [row for more in places for row in values_of(more)]
    return [row for more in places[at:at + 1] for row in values_of(more)]


def complete(words: Sequence[str]) -> str:
    """The lines for the shells, of what begins as the last word does."""
    last = words[-1] if words else ""
    rows = [row for row in completions(words) if row[0] == FILES or row[0].startswith(last)]
    return "".join("\t".join(filter(None, row)) + "\n" for row in rows)
