"""The desk's refusals by number, in words: page/wire/refusals.json has them."""
from __future__ import annotations

from typing import Any

from .described import described

REFUSALS: dict[int, dict[str, Any]] = {row["number"]: row for row in described("refusals")}
# An unknown caller, and what may be wrong with one try's request alone: the desk hasn't looked at
# its key.
BEFORE_KEYS = {number for number, row in REFUSALS.items() if row.get("early")}


def why(number: int) -> str:
    """What it means, to follow a colon."""
    if number not in REFUSALS:
        return "docs/REFUSALS.md has it"
    row = REFUSALS[number]
    means = str(row.get("told") or row["means"]).removeprefix("A device: ")
    told = means.split(". ")[0].rstrip(".")
    return told[:1].lower() + told[1:]


def next_steps(number: int) -> list[str]:
    """What to do, at a terminal."""
    row = REFUSALS.get(number, {})
    step = row.get("terminal") or row.get("next")
    return [step] if step else []
