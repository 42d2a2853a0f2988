"""Which requests and proposals a search takes, by page/wire/cases/search.json."""
from __future__ import annotations

from typing import Any

# So many digits of a digest are a search for it.
DIGITS = 8


def request_matches(one: dict[str, Any], text: str) -> bool:
    """By its number, and parts of its title and its submitter's name; by the beginning of one of
    its digests."""
    text = text.strip().lower()
    names = [str(one.get(name) or "") for name in ("file", "digest", "signing", "returned")]
    return (str(one.get("number")) == text
            or any(text in str(one.get(name, "")).lower() for name in ("title", "submitter"))
            or len(text) >= DIGITS and any(name.startswith(text) for name in names))


def proposal_matches(one: dict[str, Any], text: str) -> bool:
    """By its number, and a part of its officer's name."""
    text = text.strip().lower()
    return str(one.get("number")) == text or text in str(one.get("officer", ""))
