"""A desk that serves is published by its officer's token; what is no desk is a fault."""
from __future__ import annotations

import os
import re
import time
from pathlib import Path
from typing import Callable, Iterator

import pytest

from checks.publish.mirror import served
from checks.publish.place import Place, number, private_token
from checks.support.program import EXPORTS
from checks.support.server import Server
from checks.support.steps import confirms, named

# Five minutes are two seconds here, and a GiB is a MiB.
QUICK = (
    ("reader.py", "^(ANSWER_SECONDS, ANSWER_BYTES =) 300, 1 << 30$", r"\1 2, 1 << 20"),
)


@pytest.fixture
def quick(signed: Place) -> Path:
    return signed.changed("quick", *QUICK)


def by(url: str, path: str) -> tuple[str, ...]:
    return ("--url", url, "--token-file", path)


def test_its_new_calls_are_published(signed: Place, serve: Callable[..., Server]) -> None:
    given = signed.proposes("olga", "/dbx/digests", named(number(3)))
    server = serve(signed.db)
    step = confirms("otto", "k-http", given, 1, 0, 0, 0)
    server.answers(step.given, step.due, "a Confirm")
    of = by(f"http://127.0.0.1:{server.port}", private_token(signed, "olga"))
    signed.publish(0, "calls 13: published", "--public-minutes", of=of)
    signed.shows(13, minutes=0o644)
    server.kill()
    signed.is_desks()


def test_a_token_is_an_officers_and_this_users(
    signed: Place, serve: Callable[..., Server]
) -> None:
    url = f"http://127.0.0.1:{serve(signed.db).port}"
    says = "GET /minutes/1: refused 21 NotYourRole: "
    signed.publish(3, says, of=by(url, private_token(signed, "ann")))
    olga = private_token(signed, "olga")
    os.chmod(olga, 0o640)
    signed.publish(2, "others can read", of=by(url, olga))
    os.chmod(olga, 0o600)
    if os.geteuid() == 0:
        os.chown(olga, 65534, -1)
        signed.publish(2, "olga.token is somebody else's", of=by(url, "olga.token"))


class Busy:
    """A desk of which one call more is shown behind each of the first level lists."""

    def __init__(self, place: Place, calls: int) -> None:
        self.files = {name: place.desk.gives(name, place.db) for name in EXPORTS}
        self.lines = self.files["minutes"].splitlines(keepends=True)
        self.shown = len(self.lines) - calls

    def pieces(self, path: str) -> Iterator[bytes]:
        found = re.fullmatch("/minutes/([0-9]+)", path)
        data = self.files[path[1:]] if not found else b"".join(
            self.lines[int(found[1]) - 1 : self.shown]
        )
        self.shown = min(self.shown + (path == "/level"), len(self.lines))
        return iter([data])


def test_of_a_busy_desk_the_earlier_minutes_are_fetched_once(signed: Place) -> None:
    of = private_token(signed, "olga")
    with served(Busy(signed, 7).pieces) as (url, asked):
        signed.publish(0, "calls 11: nothing new", of=by(url, of))
    assert (asked.count("/level"), asked.count("/minutes/1")) == (8, 1)


def test_no_desk_has_so_many_calls(signed: Place) -> None:
    few = signed.changed("few", ("reader.py", "^MOST_CALLS = 1_000_000$", "MOST_CALLS = 10"))
    of = private_token(signed, "olga")
    with served(Busy(signed, 0).pieces) as (url, _):
        signed.publish(3, "no desk has more than 10 calls", by=few, of=by(url, of))


LINE = "1\tolga\tk\tx\ty\n"


@pytest.mark.parametrize(
    "text", ("<html>\n", "no line", LINE * 2, LINE.replace("1", "2", 1), LINE[:-1]),
)
def test_what_comes_of_no_desk_is_no_minutes(signed: Place, text: str) -> None:
    of = private_token(signed, "olga")
    with served(lambda _: iter([text.encode()])) as (url, _):
        signed.publish(3, "what came isn't minutes", of=by(url, of))
    signed.shows(11)


def slowly(_: str) -> Iterator[bytes]:
    """For three minutes."""
    for _piece in range(1000):
        yield bytes(10)
        time.sleep(0.2)


def test_an_answer_that_does_not_end_is_a_fault(signed: Place, quick: Path) -> None:
    of = private_token(signed, "olga")
    with served(slowly, whole=False) as (url, _):
        signed.publish(3, "it wasn't whole after 3 seconds", by=quick, of=by(url, of))


def test_an_answer_that_is_too_long_is_a_fault(signed: Place, quick: Path) -> None:
    of = private_token(signed, "olga")
    with served(lambda _: iter([bytes(1000)] * 3000), whole=False) as (url, _):
        signed.publish(3, "an answer has more than", by=quick, of=by(url, of))
