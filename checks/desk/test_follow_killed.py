"""`desk follow` is killed with SIGKILL 200 times, while it follows by the rules of one officer and
of two: each line that was followed stays, and the next run finishes."""
from __future__ import annotations

import gzip
import random
import signal
import subprocess
import time
from pathlib import Path

import pytest

from checks.support.images import OWNER, sha256
from checks.support.program import Program
from checks.support.says import expect, fail
from checks.support.tools import EXAMPLES, end_with_parent

KILLS = 200
FIRST = EXAMPLES / "version-1" / "desk.db.gz"


def long_minutes() -> bytes:
    """Some 15,000 lines behind those of version 1: listed and unlisted by either rules."""
    lines = (EXAMPLES / "version-1" / "minutes").read_text(encoding="ascii").splitlines()

    def listing(count: int) -> None:
        for _ in range(count):
            hashed = sha256(str(len(lines)).encode())
            for text, reply in ((f"list-digest {hashed}", "listed"),
                                (f"unlist digest {hashed}", "unlisted")):
                lines.append(f"{len(lines) + 1}\tolga\tL{len(lines)}\t{text}\t{reply}")

    listing(1500)
    for number in range(300):
        text = f"revoke-digest {sha256(f'revoked {number}'.encode())}"
        lines.append(f"{len(lines) + 1}\tolga\tP{number}\t{text}\tproposed {number + 1}")
    listing(6000)
    return "".join(f"{line}\n" for line in lines).encode()


class Killing:
    """Kills runs of `follow` over the minutes at random moments."""

    def __init__(self, desk: Program, minutes: bytes) -> None:
        self.desk, self.minutes, self.path = desk, minutes, desk.at("killed.db")
        self.words = [desk.path, "follow", self.path, OWNER, desk.file("long", minutes)]
        begun = time.monotonic()
        desk.gives("level", desk.file("timed.db", gzip.decompress(FIRST.read_bytes())))
        # A run is killed within so many seconds: within twice as many after twenty runs that
        # followed no line, and within half as many after one that followed all of them, since the
        # machine may be busy now and then.
        self.most = 4 * (time.monotonic() - begun)
        self.grown, self.last, self.anew = 0, 0, 0

    def kill(self) -> bool:
        """Whether a run was killed; one that was done by then is begun anew."""
        run = subprocess.Popen(
            self.words, stdout=subprocess.DEVNULL, stderr=subprocess.PIPE,
            preexec_fn=end_with_parent
        )
        time.sleep(random.uniform(0, self.most))
        run.kill()
        err = run.communicate()[1]
        if run.returncode == 0:
            self.anew += 1
            assert self.anew <= 20, "runs end before they are killed: there are too few lines"
            for ending in ("", "-wal"):
                Path(self.path + ending).unlink(missing_ok=True)
            self.most, self.last = self.most / 2, 0
            return False
        expect((run.returncode, err), (-signal.SIGKILL, b""), "a run that is killed")
        return True

    def looks(self) -> None:
        """Each line that was followed stays."""
        ran = self.desk.run("minutes", self.path)
        if ran.status == 0 and not self.minutes.startswith(ran.out):
            fail("the desk has other minutes")
        count = ran.out.count(10)
        assert count >= self.last, f"a followed line is lost: {count} of {self.last}"
        if count == self.last:
            self.most *= 2
        self.grown, self.last = self.grown + (count > self.last), count


@pytest.mark.long(60)
def test_a_run_that_is_killed_loses_no_line_and_the_next_one_goes_on(desk: Program) -> None:
    minutes = long_minutes()
    killing, killed = Killing(desk, minutes), 0
    while killed < KILLS:
        if killing.kill():
            killed += 1
            if killed % 20 == 0:
                killing.looks()
    assert killing.grown, "no run followed a line before it was killed"
    audit = desk.gives("audit", OWNER, killing.words[-1])
    desk.ends(0, audit, b"", "follow", killing.path, OWNER, killing.words[-1])
    expect(desk.minutes(killing.path), minutes, "the minutes at the end")
