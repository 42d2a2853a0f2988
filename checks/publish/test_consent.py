"""A change of db takes a second officer's line, signed, for this change alone. Until then db stays,
and all else goes out."""
from __future__ import annotations

import os
import re

import pytest

from checks.publish.place import (
    FILES, Place, Stage, made_certificate, made_key, number, tbs_of,
)
from checks.support.images import OWNER, sha256
from checks.support.program import Program
from checks.support.says import expect
from checks.support.tools import needs, ran

pytestmark = pytest.mark.needs("openssl", "ssh-keygen")
WITH = ("--consent", "consent", "--signers", "signers")
PURPOSE = "kovelamiru-consent"
LINE, SIGNED = "consent isn't the line `{} 5 NAME`", "consent isn't signed by otto"
# Who signs, if anybody; the line, in which {} is the SHA-256 of db; for what; what is said.
REFUSED = {
    "another db": ("otto", f"{'0' * 64} 5 otto", PURPOSE, LINE),
    "an earlier call": ("otto", "{} 4 otto", PURPOSE, LINE),
    "a later call": ("otto", "{} 6 otto", PURPOSE, LINE),
    "a word more": ("otto", "{} 5 otto more", PURPOSE, LINE),
    "no name": ("otto", "{} 5", PURPOSE, LINE),
    **{
        name: ("otto", f"{{}} 5 {name}", PURPOSE,
               f"names {name}: it takes an officer who didn't change db")
        for name in ("olga", "ann", "nobody")
    },
    # (by whoever could write the file)
    "no signature": ("", "{} 5 otto", PURPOSE, SIGNED),
    "her own signature": ("olga", "{} 5 otto", PURPOSE, SIGNED),
    "another officer's signature": ("oscar", "{} 5 otto", PURPOSE, SIGNED),
    "a stranger's signature": ("mallory", "{} 5 otto", PURPOSE, SIGNED),
    "a signature of something else": ("otto", "{} 5 otto", "git", SIGNED),
    "another officer's name": ("otto", "{} 5 oscar", PURPOSE, "consent isn't signed by oscar"),
}


@pytest.fixture(scope="session")
def consent_stage(stage: Stage, published_stage: Place) -> Place:
    needs("openssl", "ssh-keygen")
    made = stage("consent", published_stage)
    made.desk.file("signer.der", made_certificate(made.room, "signer"))
    made.lists((made.room / "signer.der").read_bytes())
    keys = {one: made_key(made.room, f"key.{one}") for one in ("ann", "olga", "otto", "oscar")}
    made_key(made.room, "key.mallory")
    lines = "".join(f"{name} {key}\n" for name, key in keys.items())
    made.desk.file("signers", lines.encode())
    return made


@pytest.fixture
def consent(desk: Program, consent_stage: Place) -> Place:
    """A desk to which olga gave a certificate since it was published, at call 5."""
    return consent_stage.copied(desk)


def db_of(place: Place) -> str:
    return sha256(place.desk.gives("db", place.db))


def signs(place: Place, key: str, line: str, purpose: str = PURPOSE) -> None:
    """The file of consent has this line, signed so; or not, and it is somebody else's."""
    (place.room / "consent.sig").unlink(missing_ok=True)
    place.desk.file("consent", f"{line}\n".encode())
    words = ["ssh-keygen", "-q", "-Y", "sign", "-f", f"key.{key}", "-n", purpose, "consent"]
    if key:
        ran(*words, cwd=place.room)
    elif os.geteuid() == 0:
        os.chown(place.room / "consent", 65534, -1)


def holds(place: Place, calls: int, says: str) -> None:
    """All else is published, with the db of call 4, in which nothing was listed."""
    place.publish(0, f"db stays as of call 4: db changed by {says}", *WITH)
    expect((place.link / "db.esl").read_bytes(), b"", "the db of call 4")
    place.shows(calls, db=place.desk.gives("db", place.db))
    for name in ("dbx", "level", "minutes"):
        expect((place.link / FILES[name]).read_bytes(), place.desk.gives(name, place.db), name)
    lines = (place.link / "minutes.txt").read_bytes().splitlines(keepends=True)
    before = place.desk.file("before.txt", b"".join(lines[:4]))
    audit = place.desk.gives("audit", OWNER, before)
    expect((place.link / "audit-db.txt").read_bytes(), audit, "audit-db.txt")


def test_its_two_options_go_together(consent: Place) -> None:
    consent.publish(2, "go together", "--consent", "consent")


def test_who_changed_db_and_the_line_are_told(consent: Place) -> None:
    holds(consent, 5, f"olga; consent isn't there, and takes a line `{db_of(consent)} 5 NAME`")


@pytest.mark.parametrize("what", REFUSED)
def test_with_anything_else_db_stays(consent: Place, what: str) -> None:
    key, line, purpose, says = REFUSED[what]
    signs(consent, key, line.format(db_of(consent)), purpose)
    holds(consent, 5, f"olga; {'' if says.startswith('consent ') else 'consent '}"
          + says.format(db_of(consent)))


def test_signers_that_others_can_write_are_refused(consent: Place) -> None:
    signs(consent, "otto", f"{db_of(consent)} 5 otto")
    (consent.room / "signers").chmod(0o664)
    consent.publish(2, "others can write signers", *WITH)
    consent.shows(4)


def publishes(place: Place, calls: int) -> None:
    """With otto's line about this call."""
    signs(place, "otto", f"{db_of(place)} {calls} otto")
    place.publish(0, f"calls {calls}: published", *WITH)
    place.shows(calls)
    place.is_desks()


def test_another_officers_signed_line_publishes(consent: Place) -> None:
    publishes(consent, 5)
    consent.publish(0, "calls 5: nothing new", *WITH)


def test_consent_is_for_one_change_alone(consent: Place) -> None:
    """Unlisted, and listed again: db is the same again, and what otto saw first counts no more."""
    db, der = db_of(consent), (consent.room / "signer.der").read_bytes()
    publishes(consent, 5)
    old = {name: (consent.room / name).read_bytes() for name in ("consent", "consent.sig")}
    consent.unlists(tbs_of(consent.room, der))
    assert db_of(consent) != db, "unlisted, and db stays"
    consent.publish(0, f"`{db_of(consent)} 6 NAME`", *WITH)
    publishes(consent, 6)
    consent.lists(der)
    assert db_of(consent) == db, "listed again, and db is another one"
    for name, data in old.items():
        consent.desk.file(name, data)
    consent.publish(0, f"isn't the line `{db} 7 NAME`", *WITH)
    publishes(consent, 7)


def test_one_officers_listing_holds_no_revocation_back(consent: Place) -> None:
    """Nor do more of them; and who listed before the last publication can't consent, either."""
    consent.revokes(number(1))
    consent.raises("grub", 3, 2026112700)
    holds(consent, 9, "olga; consent isn't there")
    assert number(1) in (consent.link / "dbx.json").read_text()
    said = consent.publish(0, "calls 9: nothing new", *WITH)
    assert "db stays as of call 4" in said
    signs(consent, "olga", f"{db_of(consent)} 5 olga")
    holds(consent, 9, "olga; consent names olga: it takes an officer who didn't change db")
    consent.lists(made_certificate(consent.room, "another"))
    consent.revokes(number(2))
    holds(consent, 12, "olga; consent isn't the line")
    signs(consent, "otto", f"{db_of(consent)} 10 otto")
    consent.publish(0, "calls 12: published", *WITH)
    consent.shows(12)
    consent.is_desks()
    assert not (consent.link / "audit-db.txt").exists()


def test_a_first_publication_without_consent_has_no_db(consent: Place) -> None:
    consent.link.unlink()
    consent.publish(0, "db stays as of call 0: db changed by olga", *WITH, "--first")
    consent.shows(5, db=consent.desk.gives("db", consent.db))
    expect((consent.link / "db.esl").read_bytes(), b"", "db")


def test_a_db_that_was_changed_where_it_waits_is_a_fault(consent: Place) -> None:
    holds(consent, 5, "olga")
    audit, sums = consent.link / "audit-db.txt", consent.link / "SHA256SUMS"
    changed = re.sub("(?m)^db .*", f"db {'0' * 64}", audit.read_text())
    text = sums.read_text().replace(sha256(audit.read_bytes()), sha256(changed.encode()))
    audit.write_text(changed)
    sums.write_text(text)
    consent.publish(3, "db.esl isn't what was published: audit-db.txt is of another one", *WITH)
