"""Witnesses: a standby signs what its own `desk follow` reached, and nothing that goes back; what
they signed is published as it comes, and a mirror asks for it: whoever publishes forges no list."""
from __future__ import annotations

import contextlib
import hashlib
import re
import shutil
import time
from pathlib import Path
from typing import Iterator

import pytest

from checks.publish.following import Shown, Standby
from checks.publish.mirror import files, served
from checks.publish.place import SIGNERS, Place, made_key, number
from checks.support.dripping import WAYS, dripping
from checks.support.says import expect
from checks.support.tools import ROOT, ends, ran

pytestmark = pytest.mark.needs("openssl", "sign-efi-sig-list", "ssh-keygen")


class Witness(Standby):
    """A standby that signs."""

    def __init__(self, place: Place, name: str) -> None:
        super().__init__(place)
        self.name, self.folder = name, place.room / name
        self.folder.mkdir()
        self.db, self.minutes = self.folder / "copy.db", self.folder / "copy.txt"
        self.key = made_key(place.room, f"{name}.key")
        self.words += ["--sign", str(place.room / f"{name}.key"), "--statement", str(self.folder)]

    @property
    def text(self) -> bytes:
        return (self.folder / "checkpoint.txt").read_bytes()

    def forgets(self) -> None:
        for path in (*self.folder.glob("copy.db*"), self.minutes):
            path.unlink()

    def signed(self) -> bool:
        """ssh-keygen finds its signature of its checkpoint."""
        signers = self.room / f"{self.name}.signers"
        signers.write_text(f"{self.name} {self.key}\n")
        words = ("-f", signers, "-I", self.name, "-n", "kovelamiru-witness", "-s")
        sign = self.folder / "checkpoint.txt.sig"
        said = ran("ssh-keygen", "-Y", "verify", *words, sign, given=self.text)
        return said.startswith(b"Good ")


def shown(place: Place) -> Shown:
    return Shown(place.desk, place.db)


@pytest.fixture
def one(signed: Place) -> Witness:
    made = Witness(signed, "one")
    made.follows(shown(signed), 0, "calls 11\n")
    return made


def listed(place: Place, *witnesses: Witness) -> tuple[str | Path, ...]:
    """The options by which these witnesses are asked."""
    lines = [f"{one.name} {one.folder}/checkpoint.txt {one.key}\n" for one in witnesses]
    (place.room / "witnesses").write_text("".join(lines))
    return "--key", "publisher", "--sign", "./sign", "--witnesses", "witnesses"


def test_it_signs_what_it_reached_and_nothing_that_goes_back(signed: Place, one: Witness) -> None:
    """Also where both its files were made anew."""
    wanted = ran("cat", signed.link / "checkpoint.txt")
    assert one.text == wanted and one.signed()
    less = shown(signed)
    del less.lines[9:]
    again = shown(signed)
    again.lines[4] = again.lines[4].replace(b"\tk1\t", b"\tk-1\t")
    one.forgets()
    for other in (less, again):
        says = f"refused witness: these {len(other.lines)} calls don't go on from the 11 that "
        # (its lists are those of fewer calls)
        if len(other.lines) == 9:
            other.files = {**other.files, "/level": b"sbat,1,2021030218\n"}
        one.follows(other, 1, says)
        assert one.text == wanted and one.signed()
        one.forgets()
    signed.revokes(number(3))
    one.follows(shown(signed), 0, "calls 13\n")
    assert b"\ncalls 13\n" in one.text and one.signed()


def test_a_run_stopped_before_it_signed_is_gone_on_with(signed: Place, one: Witness) -> None:
    sign = one.folder / "checkpoint.txt.sig"
    old = sign.read_bytes()
    signed.revokes(number(3))
    one.follows(shown(signed), 0, "calls 13\n")
    for left in (old, None):
        sign.write_bytes(left) if left else sign.unlink()
        one.follows(shown(signed), 0, "calls 13\n")
        assert one.signed()


def named(*witnesses: Witness) -> list[str]:
    return sorted(f"witness-{one.name}.txt{end}" for one in witnesses for end in ("", ".sig"))


def test_a_publication_waits_for_no_witness(signed: Place, one: Witness) -> None:
    """Each signature is added once it is there, also of a later checkpoint with the same lists; one
    that was published stays."""
    two = Witness(signed, "two")
    words = listed(signed, one, two)
    signed.revokes(number(3))
    said = signed.publish(0, "calls 13: published", *words)
    assert "one hasn't signed calls 13 yet: it signed another one, of 11 calls\n" in said
    assert "two hasn't signed calls 13 yet: " in said, said
    signed.publish(0, "calls 13: nothing new", *words)
    one.follows(shown(signed), 0, "calls 13\n")
    signed.publish(0, "calls 13: published", *words)
    expect(sorted(signed.named() & {*named(one, two)}), named(one), "what witnesses signed")
    signed.shows(13)
    later = shown(signed)
    call = f"14\tolga\tk-later\trevoke-digest {number(4)}\tproposed {signed.proposals + 1}\n"
    later.lines.append(call.encode())
    for who in (one, two):
        who.follows(later, 0, "calls 14\n")
    signed.publish(0, "calls 13: published", *words)
    signed.shows(13)
    for who, calls in ((one, 13), (two, 14)):
        text = (signed.link / f"witness-{who.name}.txt").read_text()
        assert f"\ncalls {calls}\n" in text, text


def test_a_witness_that_never_answers_holds_nothing_up(signed: Place, one: Witness) -> None:
    """Nor a mirror: each is asked at once, and all for so long."""
    quick = signed.changed(
        "quick", ("checkpoints.py", "^SECONDS, (.*) = 30, ", r"SECONDS, \1 = 2, "),
        ("publish/witness.py", "^(WITNESS_SECONDS, .*) = 30, ", r"\1 = 2, "))
    signed.revokes(number(3))
    one.follows(shown(signed), 0, "calls 13\n")
    words = listed(signed, one)
    with contextlib.ExitStack() as stack:
        urls = [stack.enter_context(dripping(way)) for way in WAYS]
        lines = [f"bad-{at} {url}/checkpoint.txt {one.key[:-4]}{at:04}\n"
                 for at, url in enumerate(urls)]
        path = signed.room / "witnesses"
        path.write_text("".join(lines) + path.read_text())
        mirrors = [word for url in urls for word in ("--witness", f"{url}/checkpoint.txt")]
        began = time.monotonic()
        said = signed.publish(0, "calls 13: published", *words, *mirrors, by=quick)
        # (one after another they would take 20 seconds and more of waiting)
        assert time.monotonic() - began < 120
    expect(said.count("hasn't signed calls 13 yet: "), len(urls), "witnesses without an answer")
    expect(said.count(" stops nothing: "), len(urls), "mirrors without an answer")
    assert {*named(one)} <= signed.named()


def test_a_signature_of_another_key_or_for_another_use_is_none(signed: Place, one: Witness) -> None:
    words = listed(signed, one)
    signed.revokes(number(3))
    one.follows(shown(signed), 0, "calls 13\n")
    sign = one.folder / "checkpoint.txt.sig"
    for key, what in (("publisher", "kovelamiru-witness"), ("one.key", "kovelamiru-checkpoint")):
        made = ran("ssh-keygen", "-Y", "sign", "-f", signed.room / key, "-n", what, given=one.text)
        sign.write_bytes(made)
        signed.publish(0, "one hasn't signed calls 13 yet: ", *words)
    signed.shows(13)
    assert not {*named(one)} & signed.named()


class Mirror:
    """One that asks for a witness."""

    def __init__(self, place: Place, one: Witness, url: str) -> None:
        self.place, self.folder = place, place.room / "mirror" / "published"
        self.folder.parent.mkdir()
        self.words = ["--url", f"{url}/published", "--signers", SIGNERS, "--name",
                      "desk.example.org", "--witnesses", "known", "--first"]
        self.knows("one", one.key)

    def knows(self, name: str, key: str) -> None:
        (self.place.room / "known").write_text(f"{name} - {key}\n")

    def runs(self, status: int, says: str) -> None:
        tool = ROOT / "packaging/kovelamiru-mirror"
        ends(status, says, tool, self.folder, *self.words, cwd=self.place.room)


@pytest.fixture
def mirror(signed: Place, one: Witness) -> Iterator[Mirror]:
    """It has what was published at call 13, with the witness's signature."""
    signed.revokes(number(3))
    one.follows(shown(signed), 0, "calls 13\n")
    signed.publish(0, "calls 13: published", *listed(signed, one))
    with served(files(signed.out)) as (url, _):
        yield Mirror(signed, one, url)


def test_a_mirror_asks_for_them(mirror: Mirror, one: Witness) -> None:
    """One that isn't the witness's, or is left out, is none."""
    other = made_key(mirror.place.room, "other")
    for name, key in (("one", other), ("two", one.key)):
        mirror.knows(name, key)
        mirror.runs(1, "refused witnesses: 0 of 1 signed its")
        assert not mirror.folder.exists()
    mirror.knows("one", one.key)
    mirror.runs(0, "mirrored in ")


def forged(place: Place, **changed: bytes) -> None:
    """Whoever publishes changes files, and signs the sums of them."""
    lines = place.sums()
    for word, data in changed.items():
        name = word.replace("_", ".").replace("shim.", "shim-")
        (place.link / name).write_bytes(data)
        due = f"{hashlib.sha256(data).hexdigest()}  {name}\n"
        lines, count = re.subn(f"(?m)^[0-9a-f]{{64}}  {re.escape(name)}\n", due, lines)
        assert count == 1, name
    (place.link / "SHA256SUMS").write_text(lines)
    place.signs_sums()


@pytest.mark.parametrize("name", ("dbx_esl", "shim_dbx_esl", "db_esl", "level_csv", "dbx_auth"))
def test_whoever_publishes_forges_no_list(mirror: Mirror, name: str) -> None:
    """At the first copy, and behind another one."""
    place = mirror.place
    real = shutil.copytree(place.link.resolve(), place.room / "real")
    of = (place.link / name.replace("_", ".").replace("shim.", "shim-")).read_bytes()
    for copied in (False, True):
        forged(place, **{name: b"" if name != "db_esl" else of * 2})
        mirror.runs(1, "refused checkpoint: ")
        assert mirror.folder.exists() == copied
        shutil.copytree(real, place.link, dirs_exist_ok=True)
        mirror.runs(0, "nothing new" if copied else "mirrored in ")


def test_nor_does_one_who_forges_the_checkpoint_with_them(mirror: Mirror) -> None:
    place, data = mirror.place, b""
    due = hashlib.sha256(data).hexdigest().encode()
    texts = {name: re.sub(rb"(?m)^dbx .*", b"dbx " + due, (place.link / path).read_bytes())
             for name, path in (("checkpoint_txt", "checkpoint.txt"), ("audit_txt", "audit.txt"),
                                ("witness-one_txt", "witness-one.txt"))}
    texts["dbx_auth"] = (place.link / "dbx.auth").read_bytes()[: -len(
        (place.link / "dbx.esl").read_bytes())]
    forged(place, dbx_esl=data, **texts)
    mirror.runs(1, "refused witnesses: 0 of 1 signed its")


def test_without_witnesses_nothing_is_gone_from_a_mirror(mirror: Mirror) -> None:
    """Though whoever publishes names another dbx, or level, in all that is signed."""
    place = mirror.place
    mirror.words = [one for one in mirror.words if one not in ("--witnesses", "known")]
    mirror.runs(0, "mirrored in ")
    real = shutil.copytree(place.link.resolve(), place.room / "real")
    level = (place.link / "level.csv").read_bytes()
    for word, name, data, says in (
        ("dbx", "dbx_esl", b"", "refused dbx: 3 published entries are gone"),
        ("level", "level_csv", level.replace(b"grub,3", b"grub,2"),
         "refused level: grub has 2, and 3"),
    ):
        due = f"{word} {hashlib.sha256(data).hexdigest()}".encode()
        texts = {one.replace(".", "_"): re.sub(rb"(?m)^%s .*" % word.encode(), due,
                                               (place.link / one).read_bytes())
                 for one in ("checkpoint.txt", "audit.txt")}
        if word == "dbx":
            made, dbx = ((place.link / one).read_bytes() for one in ("dbx.auth", "dbx.esl"))
            texts["dbx_auth"] = made[: -len(dbx)]
        forged(place, **{name: data}, **texts)
        mirror.runs(1, says)
        shutil.copytree(real, place.link, dirs_exist_ok=True)


@pytest.mark.parametrize("text, says", (
    ("one\n", "no witness is 'one'"), ("../x - ssh-ed25519 AAAA\n", "no witness is '../x - ssh"),
    ("{0}{0}", "two witnesses have one name or one key"),
))
def test_a_list_that_is_none_is_said(signed: Place, one: Witness, text: str, says: str) -> None:
    words = listed(signed, one)
    path = signed.room / "witnesses"
    path.write_text(text.format(path.read_text()))
    signed.revokes(number(3))
    signed.publish(2, says, *words)
    path.chmod(0o666)
    signed.publish(2, "others can write witnesses", *words)
