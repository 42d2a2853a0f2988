"""What went back isn't published: by what was published last, or by a mirror's signed checkpoint
where that is restored too."""
from __future__ import annotations

import os
import re
import shutil
from pathlib import Path

import pytest

from checks.publish.mirror import files, served
from checks.publish.place import Place, Stage, number
from checks.support.images import OWNER, digest_list, sha256
from checks.support.program import copy_of
from checks.support.says import expect
from checks.support.steps import named
from checks.support.tools import ran

# Checkpoints: of call 5, and of call 11 as a mirror has it.
OLD, MIRROR = "copy/out/published/checkpoint.txt", "mirror/checkpoint.txt"


@pytest.fixture(scope="session")
def past_stage(stage: Stage, signed_stage: Place) -> Place:
    """The desk as it was at call 5, made again from its minutes, and published."""
    made = stage("past")
    lines = signed_stage.desk.gives("minutes", signed_stage.db).splitlines(keepends=True)
    made.desk.gives("follow", made.db, OWNER, made.desk.file("minutes", b"".join(lines[:5])))
    shutil.copy(signed_stage.room / "publisher", made.room)
    made.publish(0, "calls 5: published", "--first", "--key", "publisher")
    return made


@pytest.fixture
def past(signed: Place, past_stage: Place) -> Place:
    """A desk that was published at call 11; in `copy` it and what was published at call 5; in
    `mirror` what a mirror has."""
    shutil.copytree(past_stage.room, signed.room / "copy", symlinks=True)
    shutil.copytree(signed.link, signed.room / "mirror")
    return signed


def restored(past: Place) -> Place:
    """Desk and folder from the same copy: nothing on this machine tells."""
    copy_of(past.room / "copy" / "desk.db", past.db)
    shutil.rmtree(past.out)
    shutil.copytree(past.room / "copy" / "out", past.out, symlinks=True)
    past.proposals = 0
    return past


def works(place: Place, count: int) -> None:
    for one in range(count):
        place.proposes("oscar", "/dbx/digests", named(number(70 + one)))


def test_an_older_copy_of_the_desk_is_refused(past: Place) -> None:
    says = "refused minutes: they have 5 calls, and those published 11"
    past.publish(1, says, "--db", "copy/desk.db")
    copy_of(past.room / "copy" / "desk.db", past.db)
    past.proposals = 0
    works(past, 1)
    past.publish(1, "refused minutes: they differ from those published at call 6")
    past.shows(11)


def test_another_desk_is_refused(signed: Place) -> None:
    other = signed.desk.at("other.db")
    signed.desk.gives("init", other, OWNER)
    signed.desk.add(other, "other", "officer")
    says = "refused minutes: they differ from those published at call 1"
    signed.publish(1, says, "--db", "other.db")
    signed.shows(11)


# ---- a witness


def witness(*where: str | Path) -> list[str]:
    return ["--key", "publisher", *(word for one in where for word in ("--witness", str(one)))]


def test_a_mirrors_checkpoint_tells_of_what_was_restored_together(past: Place) -> None:
    """In a file or at its URL; also where what was published is lost."""
    place = restored(past)
    says = "refused witness: they have 5 calls, and those of {} 11: an older copy of the desk"
    with served(files(past.room / "mirror")) as (url, asked):
        for where in (MIRROR, f"{url}/checkpoint.txt"):
            place.publish(1, says.format(where), *witness(where))
            place.shows(5)
        expect(asked, ["/checkpoint.txt", "/checkpoint.txt.sig"], "what a mirror is asked for")
    shutil.rmtree(place.out)
    place.out.mkdir()
    place.publish(1, says.format(MIRROR), "--first", *witness(MIRROR))
    assert not os.path.lexists(place.link)


def test_it_tells_of_an_older_copy_with_more_calls_since(past: Place) -> None:
    place = restored(past)
    works(place, 6)
    says = f"refused witness: their first 11 calls aren't those of {MIRROR}: an older copy of the"
    place.publish(1, f"{says} desk, or another desk", *witness(MIRROR))
    place.publish(1, says, *witness(OLD, MIRROR))
    place.shows(5)
    place.publish(0, "calls 11: published", *witness(OLD))


def test_a_desk_that_a_mirror_knows_is_published(past: Place) -> None:
    said = past.publish(0, "calls 11: nothing new", *witness(MIRROR, OLD))
    assert "stops nothing" not in said
    past.dated(-2 * 3600)
    said = past.publish(0, "calls 11: nothing new", *witness(MIRROR, OLD))
    wanted = f"{OLD} stops nothing: it has 5 calls, and 11 were published at least an hour ago"
    expect(re.findall("witness (.* ago)", said), [wanted], "a mirror that is behind")


FALSE = b"owner %s\ncalls 9999999\nminutes %s\n" % (OWNER.encode(), b"0" * 64)


def test_what_our_key_did_not_sign_stops_nothing(past: Place) -> None:
    """Whatever it says, wherever it leads; and a checkpoint takes --key."""
    past.publish(2, "--witness takes --key", "--witness", MIRROR)
    ran("ssh-keygen", "-q", "-t", "ed25519", "-N", "", "-f", past.room / "mallory")
    mirror, false = past.room / "mirror", past.room / "false"

    def stops_nothing(says: str, where: str | Path = false) -> None:
        past.publish(0, "calls 11: nothing new", *witness(where))
        said = past.publish(0, f"the witness {where} stops nothing: ", *witness(where))
        assert says in said, said

    stops_nothing("No such file")
    false.write_bytes(FALSE)
    stops_nothing("false.sig: No such file")
    shutil.copy(mirror / "checkpoint.txt.sig", past.room / "false.sig")
    stops_nothing("Signature verification failed")
    for key, what in (("mallory", "kovelamiru-checkpoint"), ("publisher", "kovelamiru-publish")):
        (past.room / "false.sig").unlink()
        ran("ssh-keygen", "-q", "-Y", "sign", "-f", key, "-n", what, "false", cwd=past.room)
        stops_nothing("")
    with served(files(mirror)) as (url, asked):
        stops_nothing("status 404", f"{url}/none")
        asked.clear()
        with served(lambda path: f"{url}{path}") as (other, _):
            stops_nothing("status 302", f"{other}/checkpoint.txt")
        expect(asked, [], "where a redirect leads")
    stops_nothing("no connection to", f"{other}/checkpoint.txt")


def test_a_checkpoint_of_another_owners_desk_stops_nothing(past: Place) -> None:
    other = past.room / "other"
    other.write_bytes(FALSE.replace(OWNER[:8].encode(), b"99999999"))
    words = "-Y sign -f publisher -n kovelamiru-checkpoint".split()
    ran("ssh-keygen", "-q", *words, "other", cwd=past.room)
    past.publish(0, "stops nothing: it is of another owner's desk", *witness(other))


# ---- a desk that lies, after its last publication at call 11

WRONG = b"14\tolga\tk-x\tconfirm 4\tconfirmed 4 0 0 0 0\n"
LIES = {
    "a digest less": (
        "dbx", digest_list([number(2), number(3)]),
        f"refused dbx: 1 published entries are gone, as {number(1)}"
    ),
    "a digest more": (
        "dbx", digest_list(map(number, (1, 2, 3, 4))), "refused audit: dbx of the desk is"
    ),
    "an earlier stamp": (
        "level", b"sbat,1,2026112699\ngrub,3\n",
        "refused level: its stamp is 2026112699, and 2026112700 was published"
    ),
    "a lower generation": (
        "level", b"sbat,1,2026112701\ngrub,2\nshim,9\n",
        "refused level: grub has 2, and 3 was published"
    ),
    "a higher generation": (
        "level", b"sbat,1,2026112701\ngrub,4\n", "refused audit: level of the desk is"
    ),
    "no db": ("db", b"", "refused audit: db of the desk is"),
    "a line more": ("minutes", WRONG, "refused audit: refused 47 Minute at 14"),
}


@pytest.mark.parametrize("lie", LIES)
def test_what_the_rules_do_not_give_is_refused(signed: Place, lie: str) -> None:
    signed.revokes(number(3))
    name, data, says = LIES[lie]
    if name == "minutes":
        data = signed.desk.gives("minutes", signed.db) + data
    signed.publish(1, says, "--program", signed.lying(**{name: data}))
    signed.shows(11)
    expect(signed.left(), [], "what a refused run leaves")


# ---- published files that were changed

OTHER_SUM, OTHERS = "isn't what was published: its SHA-256 ", "audit.txt is of other files"
ALL, NO_SUM, SUMS = "(?s).+", "isn't what was published: no sum is ", "SHA256SUMS"
# What is said, and edits: a file's name, a pattern and the text in its place.
CHANGES: list[tuple[str, list[tuple[str, str, str]]]] = [
    (f"/dbx.esl {OTHER_SUM}", [("dbx.esl", ALL, "")]),
    (f"/audit.txt {OTHER_SUM}", [(SUMS, ALL, "")]),
    (f"/audit.txt {OTHER_SUM}", [("dbx.esl", ALL, ""), (SUMS, ALL, "")]),
    (f"/minutes.txt isn't what was published: {OTHERS}", [("minutes.txt", ALL, "")]),
    (f"/audit.txt {OTHER_SUM}", [(one, ALL, "") for one in ("minutes.txt", "dbx.esl", SUMS)]),
    ("/level.csv: No such file or directory", [("level.csv", "", "gone")]),
    (f"/{SUMS} {NO_SUM}'spoiled'", [(SUMS, ALL, "spoiled\n")]),
    (f"/{SUMS} {NO_SUM}", [(SUMS, r"\Z", "\xff\n")]),
    ("/level.txt: No such file or directory", [(SUMS, "level.csv", "level.txt")]),
    (f"/db.esl {OTHER_SUM}", [(SUMS, ".*  db.esl\n", "")]),
    (f"/minutes.txt isn't what was published: {OTHERS}",
     [("audit.txt", ALL, ""), (SUMS, ".*  audit.txt", f"{sha256(b'')}  audit.txt")]),
    (f"/minutes.txt isn't what was published: {OTHERS}", [("minutes.txt", r"\Z", "\n")]),
]


@pytest.mark.parametrize("case", range(len(CHANGES)))
def test_published_files_that_were_changed_are_a_fault(signed: Place, case: int) -> None:
    """They are what the next ones are judged by."""
    says, edits = CHANGES[case]
    works(signed, 1)
    before = os.readlink(signed.link)
    for name, pattern, text in edits:
        path = signed.link / name
        old = path.read_text(encoding="latin-1")
        new = re.sub(pattern, text, old, count=1)
        assert new != old
        path.write_text(new, encoding="latin-1")
        if text == "gone":
            path.unlink()
    signed.publish(3, says)
    expect(os.readlink(signed.link), before, "the link")
