"""What the page, the documents and this package share: the tables of page/wire/, its data."""
from __future__ import annotations

import json
import pathlib
from typing import Any


HERE = pathlib.Path(__file__).resolve().parent
# A package has them beside this module.
WIRE = next(one for one in (HERE / "wire", HERE.parents[1] / "page" / "wire") if one.is_dir())


def described(name: str) -> Any:
    """The table of this name."""
    return json.loads((WIRE / f"{name}.json").read_bytes())


# The most that the desk takes, and what is unusual; roles, votes and states.
LIMITS: dict[str, int] = described("limits")
WORDS: dict[str, Any] = described("words")
