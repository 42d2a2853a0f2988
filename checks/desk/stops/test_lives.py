"""Ten lives of one desk, and of one that is served: each is stopped later than the one before.

After a life the next goes on with one of the files that its stop may leave, in turn. The minutes
have each key once, in order. Of a desk where a second officer confirmed the revocation of an
image's digest, other commands are stopped, and the response to a submission meets a full device;
dbx keeps the digest, and the image stays refused. A server is sent two requests: the response to
the first is lost at its first byte, and the second is stopped at each call from there on; both have
their answers afterwards. In the first life a certificate is revoked, in the fourth it is unlisted;
its image stays refused."""
from __future__ import annotations

import subprocess

import pytest

from checks.desk.stops.cases import (
    BY_CERTIFICATE, BY_DIGEST, PEOPLE, READY, SIGNED, TINY, TINY_DIGEST, TINY_FILE, Case, after,
    imported, keys, listed, off, raised
)
from checks.desk.stops.lives import Served, has_keys, lived
from checks.desk.stops.places import DESK, WAYS, Broken, Call, Files, adds, asks, place
from checks.support.images import TBS, digest
from checks.support.says import expect
from checks.support.steps import (confirms, drops, lists, named, proposes, reviews, submits)

pytestmark = [pytest.mark.needs("cc", "sqlite3"), pytest.mark.usefixtures("a_place")]


@pytest.mark.long(100)
@pytest.mark.parametrize("way", WAYS)
def test_ten_lives_of_one_desk_keep_each_person(desks: dict[str, Files], way: str) -> None:
    """Ten lives of one desk, each with a person."""
    files = desks["new"]
    for life in range(1, 11):
        case = Case(
            f"ten lives by {way}, life {life}", files,
            [adds(f"name{life}", "submitter", f"k{life}")]
        )
        files = lived(case, way, life)
        has_keys(files, [f"k{one}" for one in range(1, life + 1)], case.name)


# What is asked in ten lives of a desk where a second officer confirmed the revocation of an image's
# digest.
BARRED_LIVES = [
    asks(lists("olga", "life-1", digest("bb"))),
    asks(off("olga", "life-2", "digest", TINY_DIGEST)),
    asks(proposes("olga", "life-3", "/dbx/digests", named(digest("cc")), 4)),
    asks(confirms("otto", "life-4", 3, 300, 0, 0, 0)),
    asks(confirms("otto", "life-5", 2, 0, 0, 1, 0)),
    asks(submits("ann", "life-6", SIGNED, "a life", 8)),
    asks(confirms("otto", "life-7", 4, 1, 0, 0, 0)),
    asks(proposes("otto", "life-8", "/dbx/certificates", named(digest("dd")), 5)),
    asks(drops("olga", "life-9", 5)),
    adds("eva", "submitter", "life-10"),
]


def loses(files: Files, call: Call, what: str) -> Files:
    """A call is accepted although its answer meets a full device; its key then has the answer, and
    changes nothing."""
    place().put(files)
    with open("/dev/full", "wb") as full:
        ran = subprocess.run(
            place().words(call.words), input=call.given, stdout=full, stderr=subprocess.PIPE,
            timeout=300, check=False
        )
    if (ran.returncode, ran.stderr) != (3, b"device 17 Write\n"):
        raise Broken(f"{what}, a lost response: status {ran.returncode}, {ran.stderr!r}")
    tables = place().tables()
    if place().gives(
        place().left(), call.words, call.given
    ) != call.due or place().tables() != tables:
        raise Broken(f"{what}, a lost response: its key has another answer, or changes the tables")
    return place().left()


@pytest.mark.long(100)
@pytest.mark.parametrize("way", WAYS)
def test_ten_lives_that_bar_an_image_keep_it_barred(desks: dict[str, Files], way: str) -> None:
    """Ten lives of a desk that bars an image by its digest. In each the response to a submission is
    lost too."""
    confirmed = asks(confirms("otto", "life-0", 1, 1, 0, 0, 0))
    expect(
        place().gives(desks["ready"], ("verdict", DESK, TINY_FILE)), b"allowed\n",
        "the verdict before the image is revoked"
    )
    files = after(desks["ready"], [confirmed])
    wanted = [*(one.key for one in READY), confirmed.key]
    for life, call in enumerate(BARRED_LIVES, 1):
        case = Case(f"ten lives that bar an image by {way}, life {life}", files, [call], BY_DIGEST)
        files = lived(case, way, life)
        # (in the sixth life the desk has one request more)
        lost = asks(submits("ann", f"lost-{life}", SIGNED, "lost", life + 2 + (life >= 6)))
        files = loses(files, lost, case.name)
        case.bars(f"{case.name}, after a lost response")
        wanted += [call.key, lost.key]
    has_keys(files, wanted, f"ten lives that bar an image by {way}")


# Two officers' calls before the lives of a server, and a life in each line: the call whose response
# is lost, and the one that is stopped. In the first life a certificate is revoked, in the fourth it
# is taken off the list.
BEFORE = [listed("o1"), proposes("olga", "o2", "/dbx/certificates", named(TBS), 1)]
SERVED_LIVES = [
    (
        confirms("otto", "a0", 1, 0, 1, 0, 0),
        proposes("olga", "b0", "/dbx/digests", named(digest("33")), 2)
    ),
    (raised("a1", 3), confirms("otto", "b1", 2, 1, 0, 0, 0)),
    (confirms("otto", "a2", 3, 0, 0, 1, 0), lists("olga", "b2", digest("34"))),
    (off("olga", "a3", "certificate", TBS), imported("b3", 4)),
    (
        proposes("olga", "a4", "/dbx/digests", named(digest("35")), 5),
        confirms("otto", "b4", 4, 300, 0, 0, 0)
    ),
    (drops("otto", "a5", 5), raised("b5", 6, "shim", 4, 2024010101)),
    (lists("olga", "a6", digest("36")), submits("ann", "b6", TINY, "A", 1)),
    (
        proposes("olga", "a7", "/dbx/certificates", named(digest("37")), 7),
        reviews("rita", "b7", 1, "yes", "open")
    ),
    (off("olga", "a8", "digest", digest("36")), submits("ann", "b8", TINY, "B", 2)),
    (confirms("otto", "a9", 7, 0, 1, 0, 0), reviews("raul", "b9", 1, "yes", "approved"))
]


@pytest.mark.long(100)
@pytest.mark.parametrize("way", WAYS)
def test_ten_lives_of_a_server_have_both_answers(desks: dict[str, Files], way: str) -> None:
    """Ten lives of a server, whose desk bars an image by its certificate from the first of them
    on."""
    people = [adds(name, role, f"k-{name}") for name, role in PEOPLE]
    files = after(desks["new"], [*people, *map(asks, BEFORE)])
    calls = [asks(one) for life in SERVED_LIVES for one in life]
    whole = after(files, calls)
    wanted = place().tables()
    for life, steps in enumerate(SERVED_LIVES, 1):
        case = Served(
            f"ten lives of a server by {way}, life {life}", files, [*map(asks, steps)],
            BY_CERTIFICATE
        )
        files = case.meets_all(way, life)
    place().gives(files, ("level", DESK))
    if place().tables() != wanted:
        raise Broken(f"ten lives of a server by {way}: other tables than without a stop")
    has_keys(
        whole, keys(place().gives(files, ("minutes", DESK))), f"ten lives of a server by {way}"
    )
