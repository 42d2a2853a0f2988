"""A day at a desk that is served while a standby follows it each second.

The desk is killed with SIGKILL in the middle of a request. The lines that were fetched are followed
to their end, and the standby is served: everybody repeats their last keys, each with the reply that
it had, and goes on. At the end dbx, db, the level and the minutes are those of a desk at which
nobody was killed, byte for byte."""
from __future__ import annotations

import os
import random
import subprocess
import sys
import threading
import time
from pathlib import Path
from typing import Sequence

import pytest

from checks.conftest import NewDesk
from checks.support.images import CERTIFICATE, OWNER, PLAIN, SIGNED, changed, sha256
from checks.support.messages import PEOPLE, token
from checks.support.program import Program
from checks.support.says import expect, fail
from checks.support.server import Server
from checks.support.steps import (
    Step, confirms, drops, named, proposes, returns, reviews, submits, takes,
)
from checks.support.tools import ROOT

ROUNDS = 120
# Between two commands, so that the standby follows some of them. The last third of the day waits
# until it has followed twice: it takes longer than the second within which the desk is then killed.
PAUSE, TWICE = 0.01, 2


def day() -> list[Step]:
    """The commands of a day, each with its reply, in order: requests, votes, returned files,
    revocations that two officers decide."""
    steps = [takes("olga", "list", "/db/certificates", CERTIFICATE, {"reply": "listed"})]
    for number in range(1, ROUNDS + 1):
        place = (600, f"{number:06x}")
        image, signed = changed(PLAIN, place), changed(SIGNED, place)
        revoked = named(sha256(b"%d" % number))
        steps += [
            submits("ann", f"s{number}", image, f"grub2 2.12-{number}", number),
            reviews("rita", f"y{number}", number, "yes", "open"),
            reviews("raul", f"z{number}", number, "yes", "approved"),
            returns("sid", f"r{number}", number, signed),
            proposes("olga", f"d{number}", "/dbx/digests", revoked, number),
        ]
        if number % 7 == 0:
            steps.append(drops("otto", f"c{number}", number))
        else:
            steps.append(confirms("otto", f"c{number}", number, 1, 0, 0, 0))
    return steps


class Standby:
    """A copy that follows the desk at a port, once a second, until it is told to end."""

    def __init__(self, desk: Program, port: int) -> None:
        self.db, self.minutes = desk.at("standby.db"), desk.at("standby.minutes")
        self.key = desk.file("reader.token", token("olga").encode() + b"\n")
        os.chmod(self.key, 0o600)
        self.options = ["--owner", OWNER, "--token-file", self.key, "--program", desk.path]
        self.url = ["--url", f"http://127.0.0.1:{port}"]
        self.ends, self.runs, self.has_followed = threading.Event(), 0, threading.Event()
        self.thread = threading.Thread(target=self.follow, daemon=True)
        self.thread.start()

    def run(self, *words: str) -> subprocess.CompletedProcess[bytes]:
        script = str(ROOT / "packaging" / "desk-standby")
        asked = [sys.executable, "-IB", script, *words]
        return subprocess.run(asked, capture_output=True, timeout=300, check=False)

    def follow(self) -> None:
        while not self.ends.is_set():
            if self.run(self.db, self.minutes, *self.options, *self.url).returncode:
                break
            self.runs += 1
            if self.runs == TWICE:
                self.has_followed.set()
            self.ends.wait(1)
        # (a run that failed is told at the end)
        self.has_followed.set()

    def let_go(self) -> None:
        self.ends.set()
        self.thread.join()


def harmless(standby: Standby) -> None:
    """With its words swapped it changes neither file; and no fault is told as a refusal."""
    paths = (standby.db, standby.minutes)
    before = [Path(path).read_bytes() for path in paths]
    own = [*standby.options, *standby.url]
    nowhere = ["--url", "https://127.0.0.1:1", "--ca", "none.pem"]
    for words, status, said in (
        ([*reversed(paths), *own], 2, " isn't minutes: its line 1 doesn't begin with its number\n"),
        ([*paths, *own, "--url", "https://127.0.0.1:84443"], 2, " is no URL of a desk\n"),
        ([*paths, *own, *nowhere], 3, " none.pem: No such file or directory\n"),
    ):
        done = standby.run(*words)
        err = done.stderr.decode()
        if done.returncode != status or not err.endswith(said) or err.count("\n") != 1:
            fail(f"desk-standby {words}: {done.returncode} {done.stderr!r}")
    expect([Path(path).read_bytes() for path in paths], before, "swapped words change a file")


def torn(desk: Program, server: Server, standby: Standby, wanted: bytes) -> None:
    """After a power cut NUL bytes stand behind the last line end: they are cut, and the missing
    lines are fetched."""
    lines = Path(standby.minutes).read_bytes().splitlines(keepends=True)
    left = b"".join(lines[: len(lines) // 2]) + bytes(4096)
    db, minutes = desk.at("torn.db"), desk.file("torn.minutes", left)
    url = f"http://127.0.0.1:{server.port}"
    done = standby.run(db, minutes, *standby.options, "--url", url)
    expect((done.returncode, done.stderr), (0, b""), "desk-standby after a power cut")
    expect(Path(minutes).read_bytes(), wanted, "the minutes after a power cut")
    expect(desk.minutes(db), wanted, "the minutes of a standby after a power cut")


def works(server: Server, steps: Sequence[Step]) -> None:
    for number, step in enumerate(steps, 1):
        server.answers(step.given, step.due, f"step {number}")


def answered(server: Server, steps: Sequence[Step], standby: Standby) -> int:
    """How many of the steps were answered when the server was killed: at some moment after the
    standby had followed twice."""

    def kills() -> None:
        standby.has_followed.wait()
        time.sleep(random.random())
        server.process.kill()

    killer = threading.Thread(target=kills, daemon=True)
    killer.start()
    for number, step in enumerate(steps):
        time.sleep(PAUSE)
        if number == len(steps) * 2 // 3:
            standby.has_followed.wait()
        try:
            answer = server.ask(step.given)
        except OSError:
            answer = b""
        if answer != step.due:
            expect(answer, b"", f"step {number + 1}")
            killer.join()
            return number
    fail("the day ended before the machine was killed: it needs more rounds")


def followed_to_the_end(desk: Program, standby: Standby) -> int:
    """The last minutes that were fetched are followed; what was fetched of one line more isn't one.
    How many commands they have."""
    data = Path(standby.minutes).read_bytes()
    Path(standby.minutes).write_bytes(data[: data.rfind(b"\n") + 1])
    told = desk.gives("follow", standby.db, OWNER, standby.minutes)
    lines = data.count(b"\n")
    if not told.startswith(b"calls %d\n" % lines):
        fail(f"follow of {lines} lines told {told!r}")
    followed = lines - len(PEOPLE)
    assert standby.runs >= TWICE and followed >= 1, f"{standby.runs} runs, {followed} commands"
    return followed


@pytest.mark.long(40)
def test_a_standby_goes_on_where_the_desk_was_killed(desk: Program, new_desk: NewDesk) -> None:
    steps = day()
    lost, whole = new_desk("lost.db"), new_desk("whole.db")
    with Server(desk, whole) as server:
        works(server, steps)
    wanted = desk.exports(whole)
    with Server(desk, lost) as server:
        standby = Standby(desk, server.port)
        before = answered(server, steps, standby)
        server.process.wait()
        standby.let_go()
    harmless(standby)
    followed = followed_to_the_end(desk, standby)
    # At most the one that was under way is there without an answer.
    committed = desk.minutes(lost).count(b"\n") - len(PEOPLE)
    assert committed - before in (0, 1), f"{committed} stand there, {before} were answered"
    # It serves. Everybody repeats what was answered in the last seconds, and goes on with the day.
    with Server(desk, standby.db) as server:
        works(server, steps[max(0, followed - 20) :])
        torn(desk, server, standby, wanted["minutes"])
    expect(desk.exports(standby.db), wanted, "the standby's exports at the day's end")
    desk.audited(wanted)
