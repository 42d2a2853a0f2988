"""shim-dbx.esl: what dbx revokes, in the form that shim reads; no slip in it is published."""
from __future__ import annotations

import os
import struct

import pytest

from checks.publish.place import Place, Stage, made_certificate, number, tbs_of
from checks.support.images import (
    OWNER, SHA256_KIND, STORED, X509_KIND, X509_SHA256_KIND, certificate_list, parted,
)
from checks.support.program import Program
from checks.support.says import expect
from checks.support.tools import needs, ran

pytestmark = pytest.mark.needs("cert-to-efi-sig-list", "openssl", "sig-list-to-certs")
# Listed and revoked; listed, unlisted and then revoked; revoked, listed and unlisted; revoked
# alone; listed alone.
NAMES = ("stays", "gone", "late", "never", "good")
# A list: its kind and its entries.
List = tuple[bytes, list[bytes]]


def der(place: Place, name: str) -> bytes:
    return (place.room / f"{name}.der").read_bytes()


def digests_of(place: Place) -> dict[str, str]:
    return {name: tbs_of(place.room, der(place, name)) for name in NAMES}


@pytest.fixture(scope="session")
def shim_stage(stage: Stage, founded_stage: Place) -> Place:
    needs("openssl")
    made = stage("shim", founded_stage)
    for name in NAMES:
        made.desk.file(f"{name}.der", made_certificate(made.room, name))
    digests = digests_of(made)
    for name in ("stays", "gone", "good"):
        made.lists(der(made, name))
    made.unlists(digests["gone"])
    for name in ("stays", "gone", "late", "never"):
        made.revokes(digests[name], "certificates")
    for one in (1, 2):
        made.revokes(number(one))
    made.lists(der(made, "late"))
    made.unlists(digests["late"])
    made.publish(0, ": published", "--first")
    return made


@pytest.fixture(scope="session")
def news_stage(stage: Stage, shim_stage: Place) -> Place:
    """The same certificate with another signature is listed, and a third digest is revoked."""
    made = stage("news", shim_stage)
    made.desk.file("spoilt.der", der(made, "gone")[:-1] + b"x")
    expect(tbs_of(made.room, der(made, "spoilt")), digests_of(made)["gone"], "its digest")
    made.lists(der(made, "spoilt"))
    made.revokes(number(3))
    return made


@pytest.fixture
def news(desk: Program, news_stage: Place) -> Place:
    return news_stage.copied(desk)


def test_it_is_what_efitools_makes_of_the_same_certificates(
    desk: Program, shim_stage: Place
) -> None:
    """dbx's first list, the certificates that somebody gave, and one list of the other one."""
    place = shim_stage.copied(desk)
    digests = digests_of(place)
    wanted = desk.gives("dbx", place.db)[: 28 + 2 * 48]
    for name in sorted(("stays", "gone", "late"), key=lambda one: digests[one]):
        ran("cert-to-efi-sig-list", "-g", OWNER, f"{name}.pem", "one.esl", cwd=place.room)
        wanted += (place.room / "one.esl").read_bytes()
    wanted += certificate_list([digests["never"]])
    minutes = desk.gives("minutes", place.db)
    audited = desk.gives("audit", OWNER, desk.file("minutes.txt", minutes), "shim")
    expect(desk.gives("shim", place.db), wanted, "desk shim")
    expect(audited, wanted, "desk audit .. shim")
    expect((place.link / "shim-dbx.esl").read_bytes(), wanted, "shim-dbx.esl")
    place.shows(minutes.count(b"\n"))
    ran("sig-list-to-certs", place.link / "shim-dbx.esl", "read", cwd=place.room)
    read = {one.read_bytes() for one in place.room.glob("read-*.der")}
    expect(read, {der(place, one) for one in ("stays", "gone", "late")}, "by efitools")


# ---- slips


def spelt(lists: list[List]) -> bytes:
    made = b""
    for kind, its in lists:
        made += kind + struct.pack("<III", 28 + sum(map(len, its)), 0, len(its[0])) + b"".join(its)
    return made


def slips(place: Place) -> dict[str, tuple[str, list[List]]]:
    """Why each is refused, and its lists."""
    found = parted(place.desk.gives("shim", place.db))
    kinds = (SHA256_KIND, X509_KIND, X509_SHA256_KIND)
    images, bodies, others = ([one for one in found if one[0] == kind] for kind in kinds)
    expect((len(images), len(bodies), len(others)), (1, 4, 1), "lists of each kind")
    bare, spoilt = others[0][1], STORED + der(place, "spoilt")
    body, without = "its bodies of ", "its certificates without a body "
    order, twice = "it has other lists, or in another order", "a certificate is in it twice"
    another = [(kind, [bytes(16) + one[16:] for one in its]) for kind, its in bodies]
    return {
        "a body less": (body, images + bodies[:-1] + others),
        "one body of two": (body, images + [one for one in bodies if one[1] != [spoilt]] + others),
        "a body of another": (
            body, images + bodies + [(X509_KIND, [STORED + der(place, "good")])] + others
        ),
        "none without a body": (without, images + bodies),
        "another time": (
            without, images + bodies + [(X509_SHA256_KIND, [one[:-1] + b"\1" for one in bare])]
        ),
        "one of them twice": (without, images + bodies + [(X509_SHA256_KIND, bare * 2)]),
        "no digests": ("it has 0 digests of images", bodies + others),
        "a digest less": (
            "it has 2 digests of images", [(SHA256_KIND, images[0][1][1:]), *bodies, *others]
        ),
        "another owner": ("an entry has the owner 00000000-", images + another + others),
        "descending": (twice, images + bodies[::-1] + others),
        "twice": (twice, images + [one for one in bodies for _ in range(2)] + others),
        "another order": (order, others + bodies + images),
        "another kind": (order, images + [(STORED, its) for _, its in bodies] + others),
    }


def refuses(place: Place, made: bytes, says: str) -> None:
    """Nothing is published by a desk whose audit writes this as shim-dbx.esl."""
    made_at, before = place.desk.file("made.esl", made), os.readlink(place.link)
    text = f'[ "$1 $4" != "audit shim" ] || exec cat {made_at}\nexec {place.desk.path} "$@"'
    why = f"refused shim: shim-dbx.esl wouldn't revoke what dbx does: {says}"
    place.publish(1, why, "--program", place.script("slip", text))
    expect((os.readlink(place.link), place.left()), (before, []), "what a slip leaves")


def test_no_slip_in_it_is_published(news: Place) -> None:
    for says, lists in slips(news).values():
        refuses(news, spelt(lists), says)
    news.publish(0, ": published")


@pytest.mark.parametrize("other, says", (
    ("good", "its bodies of "), ("broken", "a body that the minutes give is no certificate")
))
def test_no_other_body_in_the_minutes_is_published(news: Place, other: str, says: str) -> None:
    """Though an audit passes it."""
    stays = der(news, "stays")
    body = stays + b"\0" if other == "broken" else der(news, other)
    old, new = (b" %s\t" % one.hex().encode() for one in (stays, body))
    minutes = news.desk.gives("minutes", news.db)
    assert minutes.count(old) == 1
    forged = news.desk.file("forged.txt", minutes.replace(old, new))
    refuses(news, news.desk.gives("audit", OWNER, forged, "shim"), says)
