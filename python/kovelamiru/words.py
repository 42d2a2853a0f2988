"""Words for people: counts, and text from elsewhere made fit to be shown."""
from __future__ import annotations

import json
import re
import sys
from typing import Any, Mapping, Optional, Sequence, TextIO

HEX = re.compile(r"[0-9A-Fa-f]{64}\Z")


def printable(text: object) -> str:
    """Text from elsewhere, without what would move a terminal's cursor."""
    return "".join(sign if sign.isprintable() else f"\\x{ord(sign):02x}" for sign in str(text))


def lines_of(text: str) -> str:
    """The same of lines, which keep their ends and tabs."""
    return text if text.isprintable() else "\n".join(
        "\t".join(map(printable, line.split("\t"))) for line in text.split("\n"))


def tell(text: str, stream: Optional[TextIO] = None) -> None:
    """Prints lines of a program that runs by itself, on standard error where no stream is named."""
    print(lines_of(text), file=stream or sys.stderr, flush=True)


def cut(text: str, width: int) -> str:
    """Text of a width at most: titles and names are told apart by their ends, so it loses its
    middle."""
    if len(text) <= width:
        return text
    end = width // 2
    return text[:width - 1 - end] + "~" + text[len(text) - end:]


def brief(cell: str) -> str:
    """The beginning of a digest, for a table."""
    return cell[:12] + ".." if HEX.match(cell) else cell


def counted(number: int, one: str, many: str = "") -> str:
    return f"{number:,} {one if number == 1 else many or one + 's'}"


# So many of a list are named.
SOME = 5


def some_of(names: Sequence[str], joint: str = ", ", count: int = 0) -> str:
    """The first names of a list, and how many more there are; `count` is of all."""
    more = max(count, len(names)) - SOME
    return joint.join(names[:SOME]) + (f" and {more:,} more" if more > 0 else "")


KINDS = {"digests": "digest", "certificates": "certificate", "components": "component"}


def kinds(counts: Mapping[str, int], new: str = "") -> str:
    """How many there are of each kind of entry."""
    return ", ".join(counted(counts[name], new + one) for name, one in KINDS.items()
                     if name in counts)


def desk_json(value: Any) -> str:
    """The desk's own form of JSON."""
    return json.dumps(value, separators=(",", ":"), sort_keys=True)
