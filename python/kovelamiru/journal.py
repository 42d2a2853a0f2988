"""Commands that take effect once: a key is on the disk before it goes out, until it is answered."""
from __future__ import annotations

import datetime
import fcntl
import hashlib
import json
import os
import secrets
from typing import Any, Callable, NoReturn

from .faults import DONE, reason, wrong
from .files import folder_of, write_all

# Where a run says that it waits.
Note = Callable[[str], None]


def now() -> datetime.datetime:
    return datetime.datetime.now(datetime.timezone.utc)


def new_key() -> str:
    """A key of this moment: the minutes get a time by it."""
    return now().strftime("%Y%m%dT%H%M%SZ-") + secrets.token_hex(8)


class Entry:
    """The keys of one command in the journal, locked while a run has them. They go out only after
    they are on the disk, with the tags of what its calls are about, if they are about something:
    each try names what was looked at before the first. `behind` says of which command's replies it
    comes, if it does."""
    def __init__(self, path: str, note: Note):
        self.path = path
        self.file = self.locked(note)
        self.keys: list[str] = []
        self.tags: list[str] = []
        self.since = ""
        self.behind: dict[str, Any] = {}
        self.is_gone = False
        try:
            found = json.loads(os.pread(self.file, 1 << 20, 0))
            self.keys, self.since = [str(key) for key in found["keys"]], str(found["since"])
            self.tags = [str(tag) for tag in found["tags"]]
            self.behind = dict(found.get("behind", {}))
        except (ValueError, KeyError, TypeError):
            # New, or cut before any key went out.
            pass

    def locked(self, note: Note) -> int:
        while True:
            opened = os.open(self.path, os.O_RDWR | os.O_CREAT | os.O_CLOEXEC | os.O_NOFOLLOW,
                             0o600)
            try:
                fcntl.flock(opened, fcntl.LOCK_EX | fcntl.LOCK_NB)
            except BlockingIOError:
                note(
                    "deskctl: the same command is under way in another run; this one waits for it")
                fcntl.flock(opened, fcntl.LOCK_EX)
            try:
                if os.path.samestat(os.fstat(opened), os.stat(self.path)):
                    return opened
            except FileNotFoundError:
                pass
            os.close(opened)

    def write(self, what: str, where: str, tags: list[str], key: str = "") -> None:
        """A new key, or this one, and a tag for each call, on the disk before any of them goes
        out."""
        self.hold(what, where, [key or new_key() for _ in tags], tags)

    def hold(self, what: str, where: str, keys: list[str], tags: list[str]) -> None:
        """Keys, on the disk; without tags what they are about hasn't been looked at."""
        self.keys, self.tags = keys, tags
        self.since = now().strftime("%Y-%m-%dT%H:%M:%SZ")
        more = {"behind": self.behind} if self.behind else {}
        text = json.dumps({
            **more,
            "desk": where,
            "keys": self.keys,
            "since": self.since,
            "tags": tags,
            "what": what}).encode()
        os.ftruncate(self.file, 0)
        os.lseek(self.file, 0, os.SEEK_SET)
        write_all(self.file, text)
        os.fsync(self.file)
        folder = os.open(os.path.dirname(self.path), os.O_RDONLY | os.O_CLOEXEC)
        os.fsync(folder)
        os.close(folder)

    def done(self) -> None:
        if not self.is_gone:
            os.unlink(self.path)
        self.is_gone = True

    def over(self, status: int = DONE) -> NoReturn:
        """Ends the run: its answers were shown. Killed between the two lines, and run again, it
        acts again."""
        if not self.is_gone:
            os.unlink(self.path)
        os._exit(status)

    def close(self) -> None:
        os.close(self.file)


class Journal:
    """Commands whose answer hasn't come, a file each."""
    def __init__(self) -> None:
        self.folder = os.path.join(folder_of("XDG_STATE_HOME", ".local/state"), "deskctl")

    def path(self, identity: Any) -> str:
        name = hashlib.sha256(json.dumps(identity).encode()).hexdigest()[:32]
        return os.path.join(self.folder, name)

    def entry(self, identity: Any, note: Note) -> Entry:
        try:
            os.makedirs(self.folder, mode=0o700, exist_ok=True)
            return Entry(self.path(identity), note)
        except OSError as error:
            wrong(f"no journal can be kept in {self.folder}: {reason(error)}",
                  "XDG_STATE_HOME names another folder for it.")

    def behind(self, identity: Any) -> list[dict[str, Any]]:
        """What came of this command's replies, and has no answer; nothing while it has none
        itself."""
        found, own = self.pending(), os.path.basename(self.path(identity))
        if any(one["file"] == own for one in found):
            return []
        return [one for one in found if one.get("behind", {}).get("of") == own]

    def pending(self) -> list[dict[str, Any]]:
        found = []
        for name in sorted(os.listdir(self.folder)) if os.path.isdir(self.folder) else []:
            try:
                with open(os.path.join(self.folder, name), encoding="utf-8") as file:
                    found.append({**json.load(file), "file": name})
            except (OSError, ValueError, TypeError):
                pass
        return sorted(found, key=lambda entry: str(entry.get("since")))
