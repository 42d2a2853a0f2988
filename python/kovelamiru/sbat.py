"""A level's text (shim's SBAT.md): its stamp, and a generation for each component; and where a
variable or an image holds one."""
from __future__ import annotations

import re

from .brought import BROUGHT
from .faults import Unreadable
from .pe import texts_in
from .update import variable

# How a level begins, wherever it stands, and how a line of one does: its first line may be missing.
LEVEL = re.compile(rb"sbat,0*1,[0-9]{10}(?![0-9])")
STAMPS = re.compile(rb"(?m)^sbat,0*1,([0-9]{10})(?![0-9])")
ROW = re.compile(rb"[!-+\--~]{1,128},[0-9]{1,10}(?:,|\s*\Z)")

# So many stamps are told.
MANY = 20


def level_read(text: str, whole: bool = False) -> tuple[int, dict[str, int]]:
    """The stamp, and the generation of each name; as far as it can be read, or all of it."""
    stamp = 0
    found: dict[str, int] = {}
    for line in text.split("\0")[0].splitlines():
        parts = line.split(",")
        if len(parts) > 2 and parts[0] == "sbat" and parts[2].isdecimal():
            stamp = int(parts[2])
        elif len(parts) > 1 and parts[0] != "sbat" and parts[1].isdecimal():
            found[parts[0]] = max(found.get(parts[0], 0), int(parts[1]))
        elif whole:
            raise Unreadable(f"a level has no line {line[:100]!r}")
    if whole and not stamp:
        raise Unreadable("the level is no SBAT text")
    return stamp, found


def looks_like_level(text: bytes) -> bool:
    """Whether each line is one of a level's, or has nothing."""
    first, *others = text.split(b"\n")
    return bool(ROW.match(first)) and all(
        ROW.match(line) or not line.strip(b" \t\r\0") for line in others)


def one_level(text: bytes) -> None:
    """Refuses a text with levels and more than one of them, or with words before it."""
    stamps = [stamp.decode() for stamp in STAMPS.findall(text.split(b"\0")[0])]
    if len(stamps) > 1 or stamps and not text.startswith(b"sbat,"):
        told = ", ".join(dict.fromkeys(stamps[:MANY]))
        raise Unreadable(BROUGHT["levels"].format(stamps=told), BROUGHT["alone"])


# The sections of an image of revocations: the level that shim applies by itself, and the latest.
LEVEL_SECTIONS = (b".sbata", b".sbatl")


def level_held(data: bytes) -> tuple[bytes, list[str]]:
    """The text of a level that a variable or an image holds, and what is said of that; nothing
    where none does."""
    inner, before = variable(data)
    if before and inner.startswith(b"sbat,"):
        return inner, before
    texts = texts_in(data, LEVEL_SECTIONS) if data.startswith(b"MZ") else {}
    if not texts:
        return b"", []
    (name, taken), *others = texts.items()
    return taken, [BROUGHT["image"].format(section=name)] + [
        BROUGHT["other"].format(section=other, stamp=level_read(text.decode("utf-8", "replace"))[0])
        for other, text in others if text != taken]
