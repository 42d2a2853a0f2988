"""An image's facts, by the desk's names."""
from __future__ import annotations

from dataclasses import dataclass, fields
from typing import Any


@dataclass(frozen=True)
class Facts:
    """What the desk says of an image, by the names of POST /facts."""

    length: int
    gap: int
    file: str
    digest: str
    signing: str
    carried: list[str]
    components: list[list[Any]]

    def value(self) -> dict[str, Any]:
        """The desk's own JSON."""
        return {one.name: getattr(self, one.name) for one in fields(self)}


def gap_words(gap: int) -> str:
    return f"{gap} bytes, for which osslsigncode and fwupd have another digest than firmware"
