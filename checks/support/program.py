"""The desk's program: its runs, its desks' files and what it exports."""
from __future__ import annotations

import contextlib
import os
import shutil
import subprocess
import tempfile
from pathlib import Path
from typing import Callable, Iterator, Mapping, NamedTuple

from checks.support.images import OWNER, sha256
from checks.support.messages import PEOPLE, token
from checks.support.says import expect, fail, note, short
from checks.support.tools import end_with_parent, needs

# (an export by its subcommand, as `audit` tells them)
EXPORTS = ("minutes", "dbx", "db", "level")


class Ran(NamedTuple):
    """How a run of the program ended, and what it wrote to both outputs."""

    status: int
    out: bytes
    err: bytes


def copy_of(desk: str | Path, path: str | Path) -> str:
    """The path, at which a copy of a desk's file and of its log is put."""
    for ending in ("", "-wal"):
        if os.path.exists(f"{path}{ending}"):
            os.remove(f"{path}{ending}")
        if os.path.exists(f"{desk}{ending}"):
            shutil.copyfile(f"{desk}{ending}", f"{path}{ending}")
    return str(path)


def told(exports: Mapping[str, bytes]) -> bytes:
    """What `audit` and `follow` tell of a desk with these exports."""
    lines = [f"calls {exports['minutes'].count(10)}"]
    lines += [f"{name} {sha256(data)}" for name, data in exports.items()]
    return "".join(f"{one}\n" for one in lines).encode()


UNOPENED = b"device 45 File\n"
CAUSES = (
    "no such file", "a folder", "no regular file", "no permission", "it can't be made there",
    "another program has it open, or it is no SQLite database",
)


def without_cause(err: bytes, words: tuple[str | Path, ...]) -> bytes:
    """UNOPENED, where a line follows it with one of the words and a cause; else what was told."""
    due = {f"{word}: {cause}\n".encode() for word in words for cause in CAUSES}
    return UNOPENED if err.startswith(UNOPENED) and err[len(UNOPENED):] in due else err


class Program:
    """The program, and a folder of a test's own."""

    def __init__(self, path: str | Path, room: Path) -> None:
        self.path, self.room = str(path), room
        self.env = {**os.environ}

    def at(self, name: str) -> str:
        return str(self.room / name)

    def run(
        self, *words: str | Path, given: bytes | Path = b"", env: Mapping[str, str] | None = None,
        begin: Callable[[], None] = end_with_parent, seconds: float = 240,
    ) -> Ran:
        """A run with these words, this standard input (bytes, or a path that is opened), and more
        in its environment."""
        asked = [self.path, *map(str, words)]
        if isinstance(given, Path):
            opened, sent = os.open(given, os.O_RDONLY), None
        else:
            opened, sent = subprocess.PIPE, given
        with subprocess.Popen(
            asked, stdin=opened, stdout=subprocess.PIPE, stderr=subprocess.PIPE,
            env={**self.env, **(env or {})}, preexec_fn=begin, cwd=self.room,
        ) as process:
            try:
                out, err = process.communicate(sent, timeout=seconds)
            except BaseException:
                process.kill()
                raise
        if isinstance(given, Path):
            os.close(opened)
        found = Ran(process.returncode, out, err)
        note(f"desk {' '.join(asked[1:])}", given, tuple(found))
        return found

    def full(self, *words: str | Path, given: bytes = b"") -> Ran:
        """A run whose standard output is a full device: /dev/full accepts no byte."""
        with open("/dev/full", "wb") as full:
            done = subprocess.run(
                [self.path, *map(str, words)], input=given, stdout=full, stderr=subprocess.PIPE,
                timeout=240, check=False, env=self.env, cwd=self.room,
            )
        return Ran(done.returncode, b"", done.stderr)

    def ends(
        self, status: int, out: bytes, err: bytes, *words: str | Path, given: bytes | Path = b"",
        what: str = "",
    ) -> None:
        """A run ends with this status and has written this to both outputs; behind `device 45 File`
        also a line with the file and the cause."""
        found = self.run(*words, given=given)
        if err == UNOPENED:
            found = found._replace(err=without_cause(found.err, words))
        expect(found, Ran(status, out, err), f"{what}desk {' '.join(map(str, words))}")

    def gives(self, *words: str | Path, given: bytes = b"", status: int = 0) -> bytes:
        """What is written by a run that ends so, with nothing on standard error."""
        found = self.run(*words, given=given)
        if found.status != status or found.err:
            asked = " ".join(map(str, words))
            fail(
                f"desk {asked}: status {found.status} in place of {status}\n"
                f"    sent {short(given)}\n    out  {short(found.out)}\n    err  {short(found.err)}"
            )
        return found.out

    def file(self, name: str, data: bytes) -> str:
        """The path of a file with these bytes in the room."""
        (self.room / name).write_bytes(data)
        return self.at(name)

    def founded(self, name: str) -> str:
        """A desk of PEOPLE alone."""
        path = self.at(name)
        self.gives("init", path, OWNER)
        for person, role in PEOPLE.items():
            self.add(path, person, role)
        return path

    def add(self, desk: str, person: str, role: str) -> None:
        given = f"{token(person)}\n".encode()
        self.gives("person", desk, person, role, f"k-{person}", given=given)

    def copied(self, desk: str, name: str) -> str:
        """A copy of a desk's files in the room."""
        return copy_of(desk, self.at(name))

    def answers(self, desk: str, given: bytes, due: bytes, what: str) -> None:
        """A run of its own gives this response."""
        expect(self.gives("answer", desk, given=given), due, what)

    def minutes(self, desk: str) -> bytes:
        return self.gives("minutes", desk)

    def exports(self, desk: str) -> dict[str, bytes]:
        return {name: self.gives(name, desk) for name in EXPORTS}

    def audited(self, exports: Mapping[str, bytes], owner: str = OWNER) -> None:
        """An audit passes the minutes, and tells these exports."""
        expect(self.gives("audit", owner, "-", given=exports["minutes"]), told(exports), "an audit")


def dump(desk: str) -> bytes:
    """Every row of every table of a desk that nobody has open, as sqlite3's shell reads a copy of
    its file and of its log: a run that ends with a fault of the store may leave one."""
    needs("sqlite3")
    copied = copy_of(desk, f"{desk}.dumped")
    done = subprocess.run(
        ["sqlite3", copied, ".dump"], capture_output=True, timeout=120, check=False
    )
    if done.returncode or done.stderr:
        fail(f"sqlite3 {desk}: {done.stderr!r}")
    return done.stdout


@contextlib.contextmanager
def alone(path: str | Path) -> Iterator[Program]:
    """The program in a folder that is gone at the end, for what isn't a test."""
    with tempfile.TemporaryDirectory(prefix="desk-") as room:
        yield Program(Path(path).resolve(), Path(room).resolve())
