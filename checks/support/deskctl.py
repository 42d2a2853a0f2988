"""deskctl as one person types it: a folder, a token's file and a journal of the person's own."""
from __future__ import annotations

import json
import os
import pty
import resource
import shlex
import shutil
import signal
import subprocess
from pathlib import Path
from typing import Any, Callable, NamedTuple, Sequence

from checks.support.messages import PEOPLE, got, token
from checks.support.program import Program
from checks.support.says import expect, fail, note, short
from checks.support.server import Server
from checks.support.tools import ROOT, end_with_parent, ran

DESKCTL = ROOT / "client" / "deskctl"
# What a question says that has nobody to ask.
NO_TERMINAL = "no terminal to ask at"


def compiled(folder: Path) -> list[str]:
    """How deskctl is begun, by its bytecode: so many short runs would only compile."""
    python = DESKCTL.read_text(encoding="utf-8").split("\n")[0][2:].split()
    package = folder / "kovelamiru"
    shutil.copytree(ROOT / "python" / "kovelamiru", package)
    shutil.copytree(ROOT / "page" / "wire", package / "wire")
    ran(*python, "-m", "compileall", "-q", package)
    return [*python, shutil.copy(DESKCTL, folder)]


def with_room(size: int) -> Callable[[], None]:
    """What a process begins with: the write that would make one of its files longer than this is
    cut, as on a disk that gets full."""

    def begin() -> None:
        end_with_parent()
        resource.setrlimit(resource.RLIMIT_FSIZE, (size, size))

    return begin


class Ran(NamedTuple):
    """How a run of deskctl ended, and what it wrote."""

    status: int
    out: str
    err: str


class Person:
    """A person at a desk."""

    def __init__(
        self, command: Sequence[str], room: Path, name: str, url: str, home: str = "home",
        **settings: str
    ) -> None:
        self.command, self.room, self.name = command, room, name
        self.folder = room / f"{home}-{name}"
        self.folder.mkdir(exist_ok=True)
        self.token_file = self.folder / "token"
        self.holds(token(name))
        self.token_file.chmod(0o600)
        self.env = {"PATH": os.environ["PATH"], "HOME": str(self.folder), "DESK_URL": url,
                    "DESK_TOKEN_FILE": str(self.token_file), **settings}
        self.journal = self.folder / ".local" / "state" / "deskctl"

    def holds(self, text: str) -> None:
        """Another token stands in the person's file."""
        self.token_file.write_text(f"{text}\n", encoding="ascii")

    def at(self, url: str) -> Person:
        self.env["DESK_URL"] = url
        return self

    def start(
        self, line: str, begin: Callable[[], None] = end_with_parent, out: Any = subprocess.PIPE
    ) -> subprocess.Popen[bytes]:
        return subprocess.Popen(
            [*self.command, *shlex.split(line)], stdin=subprocess.DEVNULL, stdout=out,
            stderr=subprocess.PIPE, env=self.env, preexec_fn=begin, cwd=self.room,
        )

    def ended(self, process: subprocess.Popen[bytes], line: str) -> Ran:
        """How a run ended. None prints a token, or falls over."""
        out, err = process.communicate(timeout=250)
        said = [(data or b"").decode("utf-8", "backslashreplace") for data in (out, err)]
        found = Ran(process.returncode, *said)
        note(f"{self.name} types: deskctl {line}", "", tuple(found))
        expect("Traceback" in found.err, False, "a traceback")
        expect(token(self.name) in found.out + found.err, False, "a token that is printed")
        return found

    def run(self, line: str, **more: Any) -> Ran:
        return self.ended(self.start(line, **more), line)

    def ends(
        self, status: int, line: str, *err: str, out: Sequence[str] = (), **more: Any
    ) -> str:
        """What deskctl prints on these words; it ends so, and its outputs have these texts."""
        found = self.run(line, **more)
        lacking = [text for text in out if text not in found.out]
        lacking += [text for text in err if text not in found.err]
        if found.status != status or lacking:
            fail(f"{self.name} types: deskctl {short(line)}: status {found.status}, due is"
                 f" {status}; it doesn't say {lacking}\n    out {short(found.out, 3000)}\n"
                 f"    err {short(found.err, 3000)}")
        return found.out

    def does(self, line: str, *out: str, err: Sequence[str] = (), **more: Any) -> str:
        return self.ends(0, line, *err, out=out, **more)

    def json(self, line: str) -> Any:
        return json.loads(self.does(f"{line} --json"))

    def json_lines(self, line: str) -> list[Any]:
        return [json.loads(one) for one in self.does(f"{line} --json").splitlines()]

    def pending(self) -> list[str]:
        """The journal's entries that hold a key."""
        return [one.name for one in self.journal.glob("*") if one.stat().st_size]

    def asked(
        self, line: str, answer: str = "", size: tuple[int, int] = (60, 300),
        meanwhile: Callable[[], object] = lambda: None
    ) -> tuple[int, str]:
        """A run at a terminal, whose question gets this answer, once `meanwhile` has happened: its
        status, and all that was shown."""
        child, master = pty.fork()
        if child == 0:
            end_with_parent()
            # (a shell's job in the background ignores it)
            signal.signal(signal.SIGINT, signal.SIG_DFL)
            os.chdir(self.room)
            words = [*self.command, *shlex.split(line)]
            sizes = {"LINES": str(size[0]), "COLUMNS": str(size[1])}
            os.execve(self.command[0], words, {**self.env, **sizes})
        shown, typed = b"", False
        while True:
            try:
                piece = os.read(master, 65536)
            except OSError:
                break
            shown += piece
            last = shown.rstrip().split(b"\n")[-1]
            if not typed and last.endswith(b":"):
                meanwhile()
                os.write(master, answer.encode() + b"\n")
                typed = True
        os.close(master)
        status = os.waitstatus_to_exitcode(os.waitpid(child, 0)[1])
        text = shown.decode("utf-8", "replace").replace("\r\n", "\n")
        note(f"{self.name} types at a terminal: deskctl {line}", answer, (status, text))
        return status, text


def calls(minutes: bytes) -> list[list[str]]:
    """The lines of minutes but for the console's: number, caller, key, text, reply."""
    rows = [line.split("\t") for line in minutes.decode().splitlines()]
    return [row for row in rows if row[1] != "console"]


def without_keys(minutes: bytes) -> list[list[str]]:
    return [[*row[:2], *row[3:]] for row in calls(minutes)]


class Office:
    """A desk that serves, and its people with deskctl."""

    def __init__(self, desk: Program, server: Server, command: Sequence[str]) -> None:
        self.desk, self.server, self.command = desk, server, command
        self.url = f"http://127.0.0.1:{server.port}"
        self.people = self.people_at(self.url)

    def people_at(self, url: str, home: str = "home", **settings: str) -> dict[str, Person]:
        return {name: self.person(name, url, home, **settings) for name in PEOPLE}

    def person(self, name: str, url: str = "", home: str = "home", **settings: str) -> Person:
        return Person(self.command, self.desk.room, name, url or self.url, home, **settings)

    def __getitem__(self, name: str) -> Person:
        return self.people[name]

    def file(self, name: str, data: bytes) -> str:
        return self.desk.file(name, data)

    def minutes(self) -> bytes:
        """The minutes of a copy: the desk goes on serving."""
        return self.desk.minutes(self.desk.copied(self.server.desk, "copied.db"))

    def calls(self) -> list[list[str]]:
        return calls(self.minutes())

    def report(self) -> bytes:
        """The desk's counts; that of commands says whether one was accepted."""
        return self.server.ask(got("olga", "/report"))

    def refuses(self, name: str, line: str, *texts: str, status: int = 2) -> str:
        """The command ends so, with these texts, and no command is accepted."""
        before = self.report()
        said = self[name].ends(status, line, *texts)
        expect((self.report(), self[name].pending()), (before, []), "the desk, and the journal")
        return said

    def refuses_all(self, *rows: tuple[str, ...]) -> None:
        """Who types what, and what is said. The status is 1 where that is a refusal, or else 2."""
        for typed, *texts in rows:
            name, line = typed.split(" ", 1)
            self.refuses(name, line, *texts, status=1 if texts[0].startswith("refused ") else 2)

    def once(self, count: int) -> None:
        """So many commands were accepted, and each person's journal is empty."""
        pending = {name: who.pending() for name, who in self.people.items() if who.pending()}
        expect((len(self.calls()), pending), (count, {}), "the count of commands, the journals")
