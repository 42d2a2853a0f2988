"""A desk as it is shown to a standby: by its exports, changed as a test likes; and the standby."""
from __future__ import annotations

import sys
from pathlib import Path
from typing import Iterator

from checks.publish.mirror import served
from checks.publish.place import Place, private_token
from checks.support.images import OWNER
from checks.support.program import Program
from checks.support.tools import ROOT, ends

TOOL = ROOT / "packaging/desk-standby"


class Shown:
    """What a desk shows, by its paths but for those of the minutes."""

    def __init__(self, desk: Program, db: str) -> None:
        self.files = {f"/{name}": desk.gives(name, db) for name in ("dbx", "db", "level")}
        self.lines = desk.minutes(db).splitlines(keepends=True)

    def __call__(self, path: str) -> Iterator[bytes] | None:
        if path.startswith("/minutes/"):
            first = int(path.rpartition("/")[2]) - 1
            return iter([b"".join(self.lines[first : first + 1000])])
        return iter([self.files[path]]) if path in self.files else None


class Standby:
    """A copy in the folder of a place."""

    def __init__(self, place: Place) -> None:
        self.desk, self.room, self.tool = place.desk, place.room, TOOL
        self.db, self.minutes = self.room / "copy.db", self.room / "copy.txt"
        self.words = ["--token-file", private_token(place, "olga"), "--owner", OWNER]

    def follows(self, shown: Shown, status: int, says: str, *words: str | Path) -> str:
        """A run ends so, and says this; all that it said."""
        with served(shown) as (url, _):
            asked: list[str | Path] = [
                sys.executable, "-IB", self.tool, self.db, self.minutes,
                *self.words, "--url", url, "--program", self.desk.path,
            ]
            return ends(status, says, *asked, *words, cwd=self.room)

    def has(self, count: int, shown: Shown) -> None:
        """Both files have so many lines, those that are shown."""
        due = b"".join(shown.lines[:count])
        assert (self.minutes.read_bytes(), self.desk.minutes(str(self.db))) == (due, due)
