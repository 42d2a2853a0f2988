"""Reads and writes that fail within a request.

A verdict, an impact, the minutes, a submission with its image, a Confirm, and a review that is
refused, each by `desk answer` and over `desk serve`, whose reads and writes take a few bytes each
(checks/fail.c): the first read fails, in another run the second, and so on up to the first that
isn't made; and likewise each write. After a failed read there is no response, and the desk has the
calls of before. After a failed write a prefix of the response was sent, and an accepted command
stays: its key gets the whole response, and changes nothing more. A fault of a connection ends only
that connection; a failed accept ends the server. Each write of each export fails too."""
from __future__ import annotations

import resource
import signal
from pathlib import Path
from typing import NamedTuple

import pytest

from checks.conftest import NewDesk
from checks.support.images import PLAIN, digest, digest_list
from checks.support.messages import ok, response, said, text
from checks.support.program import Program, Ran
from checks.support.readings import ADDED
from checks.support.says import expect, fail
from checks.support.server import Server
from checks.support.steps import (
    Step, confirms, impact, judges, lists, minutes, named, proposes, reads, refuses, submits, vote,
)
from checks.support.tools import end_with_parent, library

pytestmark = pytest.mark.needs("cc")

READ, WRITE, STORE = b"device 14 Read\n", b"device 17 Write\n", b"device 41 Store\n"
NO_STORE = response(503, said({"name": "Store", "refused": 41}))
# How many bytes a read or a write takes: fewer of the requests and of the responses that are short.
FEW, MANY = 9, 64
# And how many a write of an export takes.
PART = 400


class Case(NamedTuple):
    """A request, how many bytes a call takes, and whether the desk has a proposal."""

    step: Step
    piece: int
    proposed: bool = False


# The call by which a desk has a proposal.
PROPOSED = ("olga", "k1", f"revoke-digest {digest('aa')}", "proposed 1")
SUBMISSION = submits("ann", "k1", PLAIN, "A", 1)
CASES = {
    "a verdict": Case(judges("ann", PLAIN, {"verdict": "not-listed"}), MANY),
    "a submission": Case(SUBMISSION, MANY),
    "a Confirm": Case(confirms("otto", "k1", 1, 1, 0, 0, 0), FEW, True),
    "a refused review": Case(refuses(23, "rita", "k1", "/requests/1/review", vote("yes")), FEW),
    "an impact": Case(
        reads("otto", "/proposals/1/impact", ok(impact(1, [], 76, digests=1))), MANY, True
    ),
    "the minutes": Case(
        reads("otto", "/minutes/1", text(minutes(1, *ADDED, PROPOSED))), MANY, True
    ),
}


class Faulty:
    """Runs of one case in which a read or a write fails, on copies of a desk."""

    def __init__(self, desk: Program, base: str, loaded: Path, name: str) -> None:
        self.desk, self.base, self.loaded, self.name = desk, base, loaded, name
        self.given, self.due, self.is_command = CASES[name].step
        self.piece = CASES[name].piece
        if CASES[name].proposed:
            step = proposes("olga", "k1", "/dbx/digests", named(digest("aa")), 1)
            desk.answers(base, step.given, step.due, "a proposal")
        self.before = desk.minutes(base)

    def env(self, **faults: str) -> dict[str, str]:
        return {"LD_PRELOAD": str(self.loaded), "PIECE": str(self.piece), **faults}

    def minutes_more(self, path: str, count: int, what: str) -> bytes:
        """The desk's minutes are those of before and so many more."""
        found = self.desk.minutes(path)
        if not found.startswith(self.before) or found.count(10) != self.before.count(10) + count:
            fail(f"{what}: the minutes are {found!r}")
        return found

    def tried(self, kind: str, last: int) -> None:
        """Each read or write was made to fail, up to the first that isn't made."""
        if kind == "WRITE":
            expect(last - 1, -(-len(self.due) // self.piece), f"{self.name}: the writes")
        assert last > len(self.given) // self.piece or kind == "WRITE", f"{last - 1} reads failed"

    def answer(self, path: str, kind: str, number: int) -> Ran:
        env = self.env(**{kind: str(number)})
        return self.desk.run("answer", path, given=self.given, env=env)

    def serve(self, kind: str, number: int, what: str) -> bytes:
        """What the first connection is answered. Behind it a command stays, unless a read failed;
        the next connection answers the request, and the command is there once."""
        path = self.desk.copied(self.base, "served.db")
        env = self.env(SOCKET="1", **{kind: str(number)})
        with Server(self.desk, path, 2, env=env) as server:
            found = server.ask(self.given)
            is_kept = self.is_command and (kind == "WRITE" or found == self.due)
            left = self.desk.copied(path, "left.db")
            self.minutes_more(left, int(is_kept), f"{what}, right behind it")
            server.answers(self.given, self.due, f"{what}: the request again")
            server.ended()
        self.minutes_more(path, int(self.is_command), what)
        return found


@pytest.fixture
def loaded(session_room: Path) -> Path:
    return library(session_room, "fail")


def contents(path: str) -> bytes:
    return Path(path).read_bytes()


WHOLE = 10_000


@pytest.mark.long(60)
@pytest.mark.parametrize("name", CASES)
@pytest.mark.parametrize("kind", ("READ", "WRITE"))
def test_what_fails_in_answer_gives_no_whole_response_and_the_command_is_there_once(
    desk: Program, new_desk: NewDesk, loaded: Path, kind: str, name: str
) -> None:
    """Behind a failed read the desk has the calls of before."""
    way = Faulty(desk, new_desk(), loaded, name)
    for number in range(1, WHOLE):
        what = f"{name} by answer, {kind} {number} fails"
        path = desk.copied(way.base, "tried.db")
        found = contents(path)
        ran = way.answer(path, kind, number)
        if ran == (0, way.due, b""):
            break
        written = way.due[: (number - 1) * way.piece] if kind == "WRITE" else b""
        expect(ran, Ran(3, written, WRITE if kind == "WRITE" else READ), what)
        if kind == "READ":
            expect(contents(path), found, f"{what}: the desk's file")
        # (a call may also stand in the log alone)
        after = way.minutes_more(path, int(way.is_command and kind == "WRITE"), what)
        desk.answers(path, way.given, way.due, f"{what}: the request again")
        if kind == "WRITE":
            expect(desk.minutes(path), after, f"{what}: the minutes after the request again")
    way.tried(kind, number)


@pytest.mark.long(60)
@pytest.mark.parametrize("name", CASES)
@pytest.mark.parametrize("kind", ("READ", "WRITE"))
def test_what_fails_in_serve_ends_that_connection_alone(
    desk: Program, new_desk: NewDesk, loaded: Path, kind: str, name: str
) -> None:
    """Behind a failed write a prefix of the response was sent."""
    way = Faulty(desk, new_desk(), loaded, name)
    for number in range(1, WHOLE):
        what = f"{name} over serve, {kind} {number} fails"
        found = way.serve(kind, number, what)
        if found == way.due:
            break
        # (what was written goes out before the connection ends, unless it is cut by a reset)
        most = (number - 1) * way.piece if kind == "WRITE" else 0
        if not way.due.startswith(found) or len(found) > most:
            fail(f"{what}: {found!r}")
    way.tried(kind, number)


@pytest.mark.long(40)
def test_a_write_of_an_export_that_fails_is_told_and_the_desk_stays(
    desk: Program, new_desk: NewDesk, loaded: Path
) -> None:
    """A prefix of it or all was written. The desk has 300 revoked digests."""
    path = new_desk()
    body = digest_list([f"{number:064x}" for number in range(300)])
    for step in (
        lists("olga", "k1", digest("aa")), proposes("olga", "k2", "/imports/dbx", body, 1),
        confirms("otto", "k1", 1, 300, 0, 0, 0),
    ):
        desk.answers(path, step.given, step.due, "before the exports")
    before = contents(path)
    for name, whole in {**desk.exports(path), "shim": desk.gives("shim", path)}.items():
        for number in range(1, WHOLE):
            env = {"LD_PRELOAD": str(loaded), "PIECE": str(PART), "WRITE": str(number)}
            ran = desk.run(name, path, env=env)
            if ran == (0, whole, b""):
                break
            what = f"{name}, write {number} fails"
            expect((ran.status, ran.err), (3, WRITE), what)
            # (what the output still holds is written once more as the program ends)
            if not whole.startswith(ran.out):
                fail(f"{what}: {ran.out[-300:]!r}")
        assert number > -(-len(whole) // PART), f"{name}: {number - 1} writes failed"
    expect(contents(path), before, "the desk's file after the exports")


def test_an_accept_that_fails_ends_the_server(
    desk: Program, new_desk: NewDesk, loaded: Path
) -> None:
    """What the first connection was answered stays."""
    path = new_desk()
    before = desk.minutes(path)
    with Server(desk, path, 3, env={"LD_PRELOAD": str(loaded), "ACCEPT": "2"}) as server:
        server.answers(SUBMISSION.given, SUBMISSION.due, "before an accept fails")
        server.ended(3, READ)
    after = desk.minutes(path)
    assert after.startswith(before) and after.count(10) == before.count(10) + 1


def no_room() -> None:
    """The process that begins here can't write past the 8,192nd byte of a file: its log soon finds
    no room, as on a full disk."""
    end_with_parent()
    signal.signal(signal.SIGXFSZ, signal.SIG_IGN)
    resource.setrlimit(resource.RLIMIT_FSIZE, (8_192, 8_192))


def test_a_command_on_a_full_disk_is_store_and_the_desk_opens_as_it_was(
    desk: Program, new_desk: NewDesk
) -> None:
    """It ends the program; once there is room the desk takes the command."""
    path = new_desk()
    before = desk.minutes(path)
    ran = desk.run("answer", path, given=SUBMISSION.given, begin=no_room)
    expect(ran, Ran(3, NO_STORE, STORE), "answer on a full disk")
    expect(desk.minutes(path), before, "the minutes after a full disk")
    desk.answers(path, SUBMISSION.given, SUBMISSION.due, "the request, once there is room")
    served = new_desk("served.db")
    with Server(desk, served, 3, begin=no_room) as server:
        server.answers(SUBMISSION.given, NO_STORE, "serve on a full disk")
        server.ended(3, STORE)
    expect(desk.minutes(served), before, "the minutes after serve on a full disk")
