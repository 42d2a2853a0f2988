"""A standby isn't led astray: it takes what `desk follow` takes, and finds out a desk that goes
back or shows other lists than its minutes give."""
from __future__ import annotations

import pytest

from checks.publish.following import TOOL, Shown, Standby
from checks.publish.place import Place, made_certificate, number
from checks.support.dripping import dripping
from checks.support.images import OWNER

pytestmark = pytest.mark.needs("openssl", "sign-efi-sig-list", "ssh-keygen")
ALL = 11


@pytest.fixture
def shown(signed: Place) -> Shown:
    return Shown(signed.desk, signed.db)


@pytest.fixture
def standby(signed: Place, shown: Shown) -> Standby:
    """It has all lines."""
    made = Standby(signed)
    made.follows(shown, 0, f"calls {ALL}\n")
    made.has(ALL, shown)
    return made


def test_a_line_that_is_none_changes_nothing(signed: Place, standby: Standby) -> None:
    """Lines before it are taken; the next run goes on with the true ones."""
    signed.revokes(number(3))
    true, false = Shown(signed.desk, signed.db), Shown(signed.desk, signed.db)
    for at in (ALL, ALL + 1):
        false.lines[at:] = [b"%d\tgarbage\n" % (at + 1)]
        standby.follows(false, 1, f"desk-standby: refused 47 Minute at {at + 1}\n")
        standby.has(at, false)
        false.lines = list(true.lines)
    standby.follows(true, 0, f"calls {ALL + 2}\n")
    standby.has(ALL + 2, true)


def test_a_run_that_was_stopped_before_its_file_had_the_lines(
    signed: Place, standby: Standby, shown: Shown
) -> None:
    standby.minutes.write_bytes(b"".join(shown.lines[:5]) + b"6\tol")
    standby.follows(shown, 0, f"calls {ALL}\n")
    standby.has(ALL, shown)
    standby.minutes.write_bytes(b"".join(shown.lines[:5]))
    shorter = Shown(signed.desk, signed.db)
    del shorter.lines[9:]
    standby.follows(shorter, 1, "refused minutes: the desk has 9 calls, and ")


def test_an_older_copy_with_the_same_last_line_is_refused(
    signed: Place, founded_stage: Place, standby: Standby
) -> None:
    """Another certificate was listed in place of one; the way back is another standby."""
    signed.desk.gives("init", signed.desk.at("other.db"), OWNER)
    other = Place(signed.desk)
    other.db = signed.desk.at("other.db")
    for person in ("ann/submitter", "olga/officer", "otto/officer", "oscar/officer"):
        other.desk.add(other.db, *person.split("/"))
    other.lists(made_certificate(other.room, "other"))
    for one in (1, 2):
        other.revokes(number(one))
    other.raises("grub", 3, 2026112700)
    restored = Shown(other.desk, other.db)
    assert restored.lines[-1] == Shown(signed.desk, signed.db).lines[-1]
    standby.follows(restored, 1, "refused minutes: line ")
    standby.has(ALL, Shown(signed.desk, signed.db))
    for path in (*standby.room.glob("copy.db*"), standby.minutes):
        path.rename(standby.room / f"old-{path.name}")
    standby.follows(restored, 0, f"calls {ALL}\n")
    standby.has(ALL, restored)


@pytest.mark.parametrize("name", ("dbx", "db", "level"))
def test_a_list_that_does_not_follow_from_the_minutes_is_refused(
    standby: Standby, shown: Shown, name: str
) -> None:
    shown.files[f"/{name}"] += b"x"
    standby.follows(shown, 1, f"refused {name}: the desk shows ")


def checked(place: Place) -> tuple[str, ...]:
    """By the checkpoint that was published."""
    public = str(place.room / "publisher.pub")
    return "--checkpoint", str(place.link / "checkpoint.txt"), "--checkpoint-key", public


def test_lines_are_held_against_what_was_published(
    signed: Place, standby: Standby, shown: Shown
) -> None:
    """Also lines whose lists and whose last line are the same; and fewer."""
    words = checked(signed)
    standby.follows(shown, 0, "calls 11\n", *words)
    again, fewer = Shown(signed.desk, signed.db), Shown(signed.desk, signed.db)
    again.lines[4] = again.lines[4].replace(b"\tk1\t", b"\tk-1\t")
    assert again.lines != shown.lines
    fewer.lines = fewer.lines[:9]
    for path in (*standby.room.glob("copy.db*"), standby.minutes):
        path.unlink()
    for other in (again, fewer):
        says = f"refused checkpoint: {len(other.lines)} calls don't begin with the 11 that were"
        standby.follows(other, 1, says, *words)
        assert standby.minutes.read_bytes() == b"" and not standby.db.exists()
    standby.follows(shown, 0, "calls 11\n", *words)


def test_a_checkpoint_that_the_key_did_not_sign_stops_nothing(
    signed: Place, standby: Standby, shown: Shown
) -> None:
    words, path = checked(signed), signed.link / "checkpoint.txt"
    path.write_text(path.read_text().replace("calls 11", "calls 99"))
    says = f"nothing is held against {path}: it isn't signed: "
    assert "calls 11\n" in standby.follows(shown, 0, says, *words)
    path.unlink()
    standby.follows(shown, 0, f"nothing is held against {path}: ", *words)


def test_a_checkpoint_whose_answer_never_ends_stops_nothing(
    signed: Place, standby: Standby, shown: Shown
) -> None:
    standby.tool = signed.changed(
        "quick", ("checkpoints.py", "^SECONDS, (.*) = 30, ", r"SECONDS, \1 = 2, "), tool=TOOL)
    with dripping("100 Continue") as url:
        words = "--checkpoint", f"{url}/checkpoint.txt", *checked(signed)[2:]
        says = f"nothing is held against {words[1]}: the answer was lost"
        standby.follows(shown, 0, says, *words)
