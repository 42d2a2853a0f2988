"""The commands of docs/AUDIT.md, in a folder of published files: right ones, and each file wrong
once."""
from __future__ import annotations

import os
import re
import subprocess

import pytest

from checks.support.afternoon import afternoon
from checks.support.images import OWNER, digest, digest_list
from checks.support.program import Program
from checks.support.says import fail
from checks.support.tools import EXAMPLES, ROOT

pytestmark = pytest.mark.needs("openssl", "xxd")

PAGE = ROOT / "docs" / "AUDIT.md"
# The minutes of a desk of version 1.
OLD = EXAMPLES / "version-1"
# What a desk writes, and what it is called where it is published.
FILES = {"dbx": "dbx.esl", "db": "db.esl", "level": "level.csv"}


def typed(title: str) -> str:
    """What the part of the page says to type."""
    part = PAGE.read_text(encoding="utf-8").split(f"\n## {title}\n", 1)[1].split("\n## ", 1)[0]
    rows = [row[4:] for row in part.split("\n") if row.startswith("    ")]
    return "".join(f"{row}\n" for row in rows).replace("OWNER", OWNER)


class Published:
    """A folder of published files, in which lines are typed."""

    def __init__(self, desk: Program) -> None:
        self.desk, self.folder = desk, desk.room / "published"
        self.found = desk.exports(afternoon(desk, "afternoon.db"))
        for path in (self.folder, desk.room / "bin"):
            path.mkdir()
        (desk.room / "bin" / "desk").symlink_to(desk.path)

    def gives(self, script: str, status: int, wanted: str, **others: bytes) -> None:
        """The status and what is printed, of both streams, with these files in place of the right
        ones."""
        for name, data in {**self.found, **others}.items():
            (self.folder / FILES.get(name, "minutes.txt")).write_bytes(data)
        env = {**self.desk.env, "PATH": f"{self.desk.room / 'bin'}:{os.environ['PATH']}"}
        done = subprocess.run(
            ["sh", "-c", script], cwd=self.folder, env=env, stdout=subprocess.PIPE,
            stderr=subprocess.STDOUT, text=True, timeout=240, check=False,
        )
        if done.returncode != status or not re.fullmatch(wanted, done.stdout):
            fail(f"{script}: status {done.returncode}, {done.stdout}")


MIRROR, CERTIFICATES, MIGRATION = map(
    typed, ("A mirror's check", "Listed certificates", "A desk that was migrated")
)


@pytest.fixture
def published(desk: Program) -> Published:
    return Published(desk)


def test_a_mirrors_check_finds_the_file_that_is_wrong(published: Published) -> None:
    ok = {"dbx.esl": "OK", "db.esl": "OK", "level.csv": "OK"}
    told = "".join(f"{name}: {said}\n" for name, said in ok.items())
    published.gives(MIRROR, 0, told)
    for name, data in (
        ("dbx", digest_list([digest("ee")])), ("db", b""),
        ("level", published.found["level"] + b"zlib,2\n")
    ):
        failed = told.replace(f"{FILES[name]}: OK", f"{FILES[name]}: FAILED")
        published.gives(MIRROR, 1, failed + ".*\n", **{name: data})
    cut = published.found["minutes"][:-1]
    last = published.found["minutes"].count(10)
    published.gives(MIRROR, 1, f"refused 47 Minute at {last}\n.*\n", minutes=cut)
    published.gives(MIRROR.replace("desk ", "no-desk "), 1, ".*not found\n.*\n")


def test_a_listed_certificate_with_another_digest_is_named(published: Published) -> None:
    published.gives(CERTIFICATES, 0, "")
    minutes = published.found["minutes"]
    (listed,) = re.findall(rb"list-certificate ([0-9a-f]{64}) ", minutes)
    other = minutes.replace(listed, digest("ee").encode())
    published.gives(CERTIFICATES, 0, f"{digest('ee')} isn't .*\n", minutes=other)


def test_a_desk_that_was_migrated_is_told(published: Published) -> None:
    published.gives(MIGRATION, 0, "0\n")
    published.gives(MIGRATION, 0, "13\n", minutes=(OLD / "minutes").read_bytes())
