"""SHA256SUMS: what it says of a publication, and what a mirror holds against it."""
from __future__ import annotations

import calendar
import re
import time
from dataclasses import dataclass

from ..faults import Unreadable

NAME = "SHA256SUMS"
DATE = "%Y-%m-%dT%H:%M:%SZ"


@dataclass(frozen=True)
class Sums:
    """The head, of which an old one may lack lines, and the SHA-256 of each file."""

    calls: int
    date: int
    folder: str
    files: dict[str, str]


def day(date: int) -> str:
    return time.strftime(DATE, time.gmtime(date))


def sums_of(data: bytes) -> Sums:
    head: dict[str, str] = {}
    files = {}
    for line in data.decode("ascii", "replace").splitlines():
        if line.startswith("#"):
            name, _, value = line[2:].partition(" ")
            head.setdefault(name, value)
            continue
        one = re.fullmatch(r"([0-9a-f]{64})  ([A-Za-z0-9][A-Za-z0-9._-]*)", line)
        if not one:
            raise Unreadable(f"no sum is {line[:100]!r}")
        files[one[2]] = one[1]
    calls, date, folder = (head.get(name, "") for name in ("calls", "date", "folder"))
    dated = re.fullmatch(r"\d{4}-\d\d-\d\dT\d\d:\d\d:\d\dZ", date)
    return Sums(int(calls) if re.fullmatch("[0-9]{1,7}", calls) else 0,
                calendar.timegm(time.strptime(date, DATE)) if dated else 0,
                folder if re.fullmatch(r"[A-Za-z0-9][A-Za-z0-9._-]*", folder) else "", files)
