"""The command level: the desk's level as it is, or without the names that shim can do without."""
from __future__ import annotations

from typing import Any, Iterator, Mapping

from ..answers import Counts, shaped
from ..described import WORDS
from ..levels import covered, level_text, reached
from ..standing import level_of
from .run import Run


def raises(run: Run) -> Iterator[Mapping[str, Any]]:
    """The confirmed proposals that raised names, with all that they name."""
    for value in run.desk.listed("/proposals"):
        one = shaped(Counts, value)
        if one.state == "confirmed" and one.components:
            yield run.desk.get(f"/proposals/{one.number}").object()


def level(run: Run) -> None:
    stamp, now = level_of(run.desk)
    if run.words.for_shim:
        stamps = reached(now, raises(run))
        images = (one["components"] for one in run.desk.listed("/requests"))
        without = covered(now, stamps, images)
        for name, parent in without.items():
            run.terminal.note(WORDS["shim"]["left"].format(
                name=name, generation=now[name], parent=parent, higher=now[parent]))
        now = {name: now[name] for name in now if name not in without}
    run.terminal.data(level_text(stamp, now).encode())
