"""kovelamiru-mirror: a copy of what is published, whole and signed, that never goes back."""
from __future__ import annotations

import os
import re
import shutil
import subprocess
import sys
import time
from pathlib import Path
from typing import Iterator

import pytest

from checks.publish.mirror import files, served
from checks.publish.place import SIGNERS, Place, key_of, number, spelled
from checks.support.dripping import WAYS, dripping
from checks.support.program import Program
from checks.support.says import expect
from checks.support.steps import named
from checks.support.tools import ROOT, ends, ran

MIRROR = ROOT / "packaging" / "kovelamiru-mirror"
KILLS = ROOT / "checks" / "publish" / "kills.py"
SIGNED = ("--key", "publisher")
pytestmark = pytest.mark.needs("openssl", "sign-efi-sig-list", "ssh-keygen")


class Mirror:
    """Its folder is `mirror/published`; it fetches what a place publishes."""

    def __init__(self, place: Place, url: str, asked: list[str]) -> None:
        self.place, self.url, self.asked = place, url, asked
        self.link = place.room / "mirror" / "published"
        self.link.parent.mkdir()

    def words(self, *words: str) -> list[str]:
        options = ["--url", f"{self.url}/published", "--signers", SIGNERS, "--name"]
        return [str(self.link), *options, "desk.example.org", *words]

    def runs(self, status: int, says: str, *words: str, by: Path = MIRROR) -> str:
        """A run ends so, and says this; all that it said."""
        self.asked.clear()
        return ends(status, says, by, *self.words(*words), cwd=self.place.room)

    def shows(self, calls: int) -> None:
        """The publication of so many calls, whole."""
        at = self.link.resolve()
        own = {one.name: one.read_bytes() for one in at.iterdir()}
        ran("sha256sum", "--quiet", "--strict", "-c", "SHA256SUMS", cwd=at)
        sums = own["SHA256SUMS"].decode()
        expect(key_of(sums, "calls"), str(calls), "the calls of the mirror")
        expect(os.readlink(self.link), key_of(sums, "folder"), "its folder")
        theirs = self.place.out / at.name
        wanted = {one.name: one.read_bytes() for one in theirs.iterdir()}
        expect(own, {name: data for name, data in wanted.items() if name in own}, "its files")
        expect(set(wanted) - set(own) - {"minutes.txt"}, set(), "files that it lacks")
        assert (self.link / "index.html").stat().st_mode & 0o777 == 0o644

    def left(self) -> list[str]:
        names = [one.name for one in self.link.parent.iterdir() if one.name != "published.lock"]
        return sorted(one for one in names if not re.fullmatch(r"published(\.2.*-calls-\d+)?", one))


@pytest.fixture
def mirror(signed: Place) -> Iterator[Mirror]:
    with served(files(signed.out)) as (url, asked):
        made = Mirror(signed, url, asked)
        made.runs(0, "calls 11 of 20", "--first")
        yield made


def again(place: Place, digest: int) -> None:
    """A call more is published; its lists are the same."""
    place.proposes("olga", "/dbx/digests", named(number(digest)))
    place.publish(0, ": published", "--sign", "./sign", *SIGNED)


def signs(place: Place, text: str) -> None:
    """The publisher signs another SHA256SUMS."""
    (place.link / "SHA256SUMS").write_text(text)
    (place.link / "SHA256SUMS.sig").unlink()
    words = "ssh-keygen -q -Y sign -f publisher -n kovelamiru-publish".split()
    ran(*words, place.link / "SHA256SUMS", cwd=place.room)


def test_what_is_published_is_mirrored_whole(mirror: Mirror) -> None:
    mirror.shows(11)
    mirror.runs(0, ": nothing new")
    expect(mirror.asked, [f"/published/SHA256SUMS{one}" for one in ("", ".sig")], "what is fetched")


@pytest.mark.timeout(60)
@pytest.mark.parametrize("way", WAYS)
def test_a_site_whose_answer_never_ends_is_a_fault(desk: Program, way: str) -> None:
    """A minute is a second here."""
    edit = ("publish/mirror.py", "^SUMS_SECONDS, SUMS_BYTES = 60,", "SUMS_SECONDS, SUMS_BYTES = 1,")
    with dripping(way) as url:
        mirror = Mirror(Place(desk), url, [])
        mirror.runs(3, "the answer was lost: it wasn't whole after 3 seconds", "--first",
                    by=mirror.place.changed("quick", edit, tool=MIRROR))


def test_the_first_copy_takes_its_word(mirror: Mirror) -> None:
    mirror.link.unlink()
    mirror.runs(3, "isn't there: the first copy takes --first")


def test_public_minutes_are_mirrored_where_they_are_asked_for(mirror: Mirror) -> None:
    mirror.place.proposes("olga", "/dbx/digests", named(number(5)))
    mirror.place.publish(0, ": published", *SIGNED, "--public-minutes")
    mirror.runs(0, ": mirrored in", "--minutes")
    minutes = mirror.place.link / "minutes.txt"
    assert (mirror.link / "minutes.txt").read_bytes() == minutes.read_bytes()
    (mirror.link / "minutes.txt").unlink()
    minutes.write_bytes(minutes.read_bytes() + b"x")
    mirror.runs(1, "refused checkpoint: ", "--minutes")


def test_an_older_publication_is_refused(mirror: Mirror) -> None:
    """With its own signature: by its calls, by its date."""
    old = mirror.place.link.resolve().name
    again(mirror.place, 5)
    mirror.runs(0, ": mirrored in")
    new = os.readlink(mirror.place.link)
    mirror.place.link.unlink()
    mirror.place.link.symlink_to(old)
    mirror.runs(1, "refused calls: it has 11 calls, and the copy here 12")
    mirror.place.link.unlink()
    mirror.place.link.symlink_to(new)
    text = mirror.place.sums()
    signs(mirror.place, re.sub("# date .*", f"# date {spelled(time.time() - 9000)}", text))
    mirror.runs(1, "refused date: it is of ")
    signs(mirror.place, re.sub("# date .*", f"# date {spelled(time.time() + 90000)}", text))
    mirror.runs(1, "ahead of this clock")
    signs(mirror.place, text)
    mirror.shows(12)


def test_what_another_signed_or_changed_is_refused(mirror: Mirror) -> None:
    again(mirror.place, 5)
    sums = mirror.place.link / "SHA256SUMS"
    text = sums.read_text()
    sums.write_text(text.replace("# calls 12", "# calls 13"))
    mirror.runs(1, "refused signature: ")
    sums.write_text(text)
    audit = mirror.place.link / "audit.txt"
    audit.write_text(audit.read_text().replace("calls 12", "calls 13"))
    mirror.runs(1, "audit.txt isn't the file of its sum")
    expect((os.readlink(mirror.link).rpartition("-")[2], mirror.left()), ("11", []), "the copy")
    (mirror.place.room / SIGNERS).chmod(0o666)
    mirror.runs(2, f"others can write {SIGNERS}")


def test_a_publication_that_stands_still_is_told(mirror: Mirror) -> None:
    mirror.runs(0, ": nothing new", "--oldest", "1")
    shutil.rmtree(mirror.link.parent)
    mirror.link.parent.mkdir()
    text = re.sub("# date .*", f"# date {spelled(time.time() - 9000)}", mirror.place.sums())
    signs(mirror.place, text)
    mirror.runs(1, "refused age: calls 11 of 20", "--oldest", "2", "--first")
    mirror.runs(1, ": nothing new, and that is 2 hours old", "--oldest", "2")
    mirror.runs(0, ": nothing new", "--oldest", "3")


def test_a_damaged_copy_is_made_anew(mirror: Mirror) -> None:
    (mirror.link / "dbx.esl").write_bytes(b"damaged")
    mirror.runs(0, ": mirrored in")
    mirror.shows(11)
    expect([one.rpartition("/")[2] for one in mirror.asked][2:], ["dbx.esl"], "what is fetched")
    mirror.runs(0, ": nothing new")
    expect(mirror.left(), [], "what is left")


@pytest.mark.long(60)
def test_killed_at_each_step_it_leaves_the_old_or_the_new(mirror: Mirror) -> None:
    """And the next run goes on from there."""
    again(mirror.place, 5)
    shutil.copytree(mirror.link.parent, mirror.place.room / "before", symlinks=True)
    found = []
    for step in range(1, 101):
        shutil.rmtree(mirror.link.parent)
        shutil.copytree(mirror.place.room / "before", mirror.link.parent, symlinks=True)
        words = [sys.executable, "-B", KILLS, str(step), mirror.link.parent, MIRROR]
        done = subprocess.run([*map(str, words), *mirror.words()], cwd=mirror.place.room,
                              capture_output=True, timeout=60, check=False)
        assert done.returncode in (0, -9), done
        found.append(key_of((mirror.link / "SHA256SUMS").read_text(), "calls"))
        mirror.shows(int(found[-1]))
        if done.returncode == 0:
            break
        mirror.runs(0, "calls 12 of ")
        mirror.shows(12)
        expect(mirror.left(), [], f"what is left by step {step}")
    assert re.fullmatch("(11 ){15,98}(12 )+", f"{' '.join(found)} "), found
