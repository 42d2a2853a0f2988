"""The signing command makes updates of the lists, and a key signs the sums."""
from __future__ import annotations

import os
import re

import pytest

from checks.publish.place import Place, made_certificate, number
from checks.support.says import expect
from checks.support.steps import named
from checks.support.tools import ran

pytestmark = pytest.mark.needs("openssl", "sign-efi-sig-list", "ssh-keygen")
QUICK = ("programs.py", "^(PROGRAM_SECONDS, SIGNING_SECONDS =) 300, 120$", r"\1 300, 2")
OTHER = {
    "no update": ('head -c 100 "$2" > "$3"', 1, "refused signature: "),
    "nothing": (":", 1, "refused signature: "),
    "an update of something else": (
        'printf x > x && exec "${0%/*}"/sign "$1" x "$3"', 1, "refused signature: "
    ),
    "a status": ("echo no card >&2; exit 1", 1, "status 1: no card"),
    "a link to an update": (
        'cd "${0%/*}" && ./sign "$1" "$2" made && ln -s "$PWD/made" "$3"', 3, "dbx.auth: "
    ),
    "what can be waited for": ('mkfifo "$3"', 3, "dbx.auth is no file"),
}


@pytest.fixture
def news(signed: Place) -> Place:
    """A desk with a call that isn't published yet."""
    signed.proposes("olga", "/dbx/digests", named(number(9)))
    return signed


@pytest.mark.parametrize("what", OTHER)
def test_what_is_no_update_of_the_list_is_refused(news: Place, what: str) -> None:
    text, status, says = OTHER[what]
    news.publish(status, says, "--sign", news.script("other", text))
    news.shows(11)


@pytest.mark.parametrize("text", ("{}; wait", "{}"))
def test_a_command_that_waits_is_ended_with_all_that_it_began(news: Place, text: str) -> None:
    """Two minutes are two seconds here."""
    card = news.script("card", text.format('sleep 600 & echo $! > "${0%/*}"/sleeps'))
    quick = news.changed("quick", QUICK)
    news.publish(3, "it hadn't ended after 2 seconds", "--sign", card, by=quick)
    began = int((news.room / "sleeps").read_text())
    # (one that ended and that nobody waited for has no program)
    assert not os.path.exists(f"/proc/{began}/exe"), "what the command began goes on"
    news.shows(11)


def dated(place: Place, name: str, *words: str) -> str:
    """A signing command with these words more."""
    command = 'exec sign-efi-sig-list {} -c "${{0%/*}}"/KEK.pem -k "${{0%/*}}"/KEK.key "$@"'
    return place.script(name, command.format(" ".join(words)))


@pytest.mark.parametrize("time, says", (
    ("2020-01-01 00:00:00", "its time 2020-01-01 00:00:00 isn't after 20"),
    ("2099-01-01 00:00:00", "its time 2099-01-01 00:00:00 is ahead of this clock"),
))
def test_an_update_that_no_firmware_takes_is_refused(signed: Place, time: str, says: str) -> None:
    """By its time: a signing machine's clock may be wrong."""
    signed.revokes(number(3))
    words = ("--sign", dated(signed, "late", f"-t '{time}'"))
    signed.publish(1, f"refused signature: firmware would refuse what dbx was signed as: {says}",
                   *words)
    signed.shows(11)


OURS = ("--kek", "KEK.pem")


def test_an_update_is_signed_by_the_key_that_is_named(news: Place) -> None:
    """For its own variable."""
    news.publish(2, "--kek goes with --sign", *OURS)
    made_certificate(news.room, "other")
    says = "refused signature: firmware would refuse what dbx was signed as: no certificate of {} "
    news.publish(1, says.format("other.pem"), "--sign", "./sign", "--kek", "other.pem")
    swaps = news.script("swaps", """[ "$1" = db ] && name=dbx || name=db
exec "${0%/*}"/sign $name "$2" "$3\"""")
    news.publish(1, says.format("KEK.pem"), "--sign", swaps, *OURS)
    news.shows(11)
    news.publish(0, "calls 12: published", "--sign", "./sign", *OURS)
    news.proposes("olga", "/dbx/digests", named(number(10)))
    news.publish(0, "calls 13: published", "--sign", dated(news, "appends", "-a"), *OURS)


def test_an_update_that_only_appends_needs_no_time(news: Place) -> None:
    news.publish(0, "calls 12: published", "--sign", dated(news, "appends", "-a"))
    expect((news.link / "dbx.auth").read_bytes()[:16], bytes(16), "its time")
    news.proposes("olga", "/dbx/digests", named(number(10)))
    news.publish(0, "calls 13: published", "--sign", "./sign")


def test_nothing_but_its_update_is_taken_of_a_command(news: Place) -> None:
    """Nor is it told of credentials."""
    leaving = news.script("leaving", """
for name in KEK.key.tmp SHA256SUMS more.esl; do cp "${0%/*}"/KEK.key "${3%/*}/$name"; done
echo "${CREDENTIALS_DIRECTORY:-none}" >> "${0%/*}"/credentials
exec "${0%/*}"/sign "$@\"""")
    words = ("--sign", leaving, "--key", "publisher")
    news.publish(
        0, "calls 12: published", *words, env={"CREDENTIALS_DIRECTORY": str(news.room)}
    )
    news.shows(12)
    assert {"dbx.auth", "db.auth"} <= news.named()
    assert (news.room / "credentials").read_text() == "none\nnone\n"
    secret = (news.room / "KEK.key").read_text().splitlines()[1]
    files = [one for one in news.out.rglob("*") if one.is_file()]
    assert len(files) > 30
    assert not [one for one in files if secret.encode() in one.read_bytes()]


@pytest.mark.parametrize(
    "edit", (("# date 2", "# date 3"), ("# calls 11", "# calls 12"), (".*  dbx.esl\n", ""))
)
def test_other_sums_are_not_signed(signed: Place, edit: tuple[str, str]) -> None:
    signed.signed(signed.sums().encode())
    changed = re.sub(edit[0], edit[1], signed.sums())
    assert changed != signed.sums()
    signed.signed(changed.encode(), status=255)


@pytest.mark.needs("dbxtool", "sig-list-to-certs")
def test_efitools_and_dbxtool_read_what_is_published(signed: Place) -> None:
    listed = ran("dbxtool", "-l", "-d", signed.link / "dbx.auth").decode().lower()
    for one in (1, 2):
        assert number(one) in listed
    for name in ("dbx", "db"):
        ran("sig-list-to-certs", signed.link / f"{name}.esl", f"read-{name}", cwd=signed.room)
    made = sorted(one.name for one in signed.room.glob("read-*"))
    kinds = [re.sub("[0-9]", "", one) for one in made]
    expect(kinds, ["read-db-.der", *["read-dbx-.hash"] * 2], "what efitools reads")
    der = ran("openssl", "x509", "-in", "signer.pem", "-outform", "DER", cwd=signed.room)
    expect((signed.room / made[0]).read_bytes(), der, "the certificate that efitools reads")
