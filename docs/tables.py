#!/usr/bin/env -S python3 -B
"""Writes the tables of page/wire/, and that of the definitions to be believed, into the pages that
show them: docs/tables.py [--check].

A line `<!-- NAME, by docs/tables.py -->` stands above each table, which ends at an empty line.
With --check nothing is written: each table that differs is named, and the status is 1.
"""
from __future__ import annotations

import json
import re
import sys
import uuid
from pathlib import Path
from typing import Any, Callable, Dict, List, Sequence

ROOT = Path(__file__).resolve().parent.parent
sys.path.insert(0, str(ROOT))
from docs.believed import by_crate  # noqa: E402

PAGES = ("docs/REFUSALS.md", "docs/FORMATS.md", "docs/DEFINITIONS.md")
MARKED = re.compile(r"(?m)^<!-- (\w+), by docs/tables\.py -->\n((?:\|.*\n)+)")


def wire(name: str) -> Any:
    return json.loads((ROOT / "page" / "wire" / f"{name}.json").read_text(encoding="utf-8"))


def table(head: Sequence[str], rows: Sequence[Sequence[object]]) -> str:
    lines = [f"| {' | '.join(map(str, row))} |" for row in (head, *rows)]
    lines.insert(1, "|" + "---|" * len(head))
    return "\n".join(lines) + "\n"


def refusals() -> str:
    rows = [(one["number"], one["name"], one["means"]) for one in wire("refusals")]
    return table(("No", "Name", "Why"), rows)


def statuses() -> str:
    """Each status with the refusals of requests that have it."""
    names: Dict[str, List[str]] = {"200": ["accepted commands", "repeats", "reads"]}
    for one in wire("refusals"):
        names.setdefault(str(one["status"]), []).append(one["name"])
    phrases = wire("words")["statuses"]
    rows = [(f"{status} {phrases[status]}", ", ".join(names[status])) for status in phrases]
    return table(("Status", "For"), rows)


def kinds() -> str:
    """The types of signature lists that the desk keeps."""
    rows = []
    for one in wire("lists")["types"]:
        if "entry" in one:
            least, most = one["entry"]
            size = least if least == most else f"{least} or more"
            stored = uuid.UUID(one["guid"]).bytes_le.hex()
            rows.append((one["name"].upper(), one["guid"], stored, size))
    return table(("Kind", "GUID", "As stored", "Entry"), rows)


def believed() -> str:
    """The definitions that the headline and the exports hang on, by crate."""
    return table(("Crate", "Files of its specs/, with their lines", "Lines"), by_crate(str(ROOT)))


TABLES: Dict[str, Callable[[], str]] = {
    "refusals": refusals,
    "statuses": statuses,
    "kinds": kinds,
    "believed": believed,
}


def differing(write: bool) -> List[str]:
    """The tables that aren't those of page/wire/, or aren't there; they are written where asked."""
    found, seen = [], set()
    for page in PAGES:
        text = (ROOT / page).read_text(encoding="utf-8")
        for name, old in MARKED.findall(text):
            seen.add(name)
            new = TABLES[name]()
            if new != old:
                found.append(f"{page}: {name}")
                text = text.replace(old, new)
        if write:
            (ROOT / page).write_text(text, encoding="utf-8")
    return found + [f"no page has {name}" for name in TABLES if name not in seen]


def main(words: Sequence[str]) -> None:
    if list(words) not in ([], ["--check"]):
        sys.exit(__doc__)
    found = differing(write=not words)
    for line in found:
        print(line)
    if words and found:
        sys.exit(1)


if __name__ == "__main__":
    main(sys.argv[1:])
