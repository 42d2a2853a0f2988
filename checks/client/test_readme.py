"""What the pages print is typed as it stands: the day of README.md by deskctl and that of
docs/FORMATS.md by curl, the loop and the evening of client/README.md. A foreign signature
that carries a listed certificate is allowed by the desk, and not returned by the loop."""
from __future__ import annotations

import os
import re
import shutil
import subprocess
from pathlib import Path

import pytest

from checks.client.test_imports import update
from checks.support.certificates import RSA, self_signed
from checks.support.client_day import TODAY
from checks.support.deskctl import DESKCTL, Office, Person, without_keys
from checks.support.images import PLAIN, digest, digest_list, sha256, with_text
from checks.support.ports import Held
from checks.support.program import Program
from checks.support.says import expect, fail, note
from checks.support.steps import grub
from checks.support.tools import EXAMPLES, ROOT, end_with_parent, ran


def printed(page: str, title: str) -> list[str]:
    """The indented lines below a title of a page."""
    text = (ROOT / page).read_text(encoding="utf-8")
    section = text.split(f"\n## {title}\n", 1)[1].split("\n## ", 1)[0]
    return [line[4:] for line in section.split("\n") if line.startswith("    ")]


# ---- the days


def day(desk: Program, page: str, title: str) -> list[list[str]]:
    """The minutes that a day leaves, pasted whole; its lines with # have come, and the folder that
    stands for the repository is as it was. Its port is another one, since the page's may be
    taken."""
    lines = printed(page, title)
    typed = "".join(f"{line}\n" for line in lines if not line.startswith("# "))
    due = "".join(f"{line[2:]}\n" for line in lines if line.startswith("# "))
    assert typed and due, f"{page} has no day"
    room, held = desk.room / title.replace(" ", "-"), Held()
    tree = room / "tree"
    tree.mkdir(parents=True)
    (tree / "desk").symlink_to(desk.path)
    for name in ("client", "examples"):
        (tree / name).symlink_to(ROOT / name)
    env = {"PATH": os.environ["PATH"], "HOME": str(room), "TMPDIR": str(room)}
    done = subprocess.run(
        ["bash"], input=typed.replace("8080", str(held.port)) + "wait\n", cwd=tree, text=True,
        capture_output=True, check=False, timeout=500, env=env, preexec_fn=end_with_parent,
    )
    held.let_go()
    came = done.stdout.replace("\n\n", "\n").replace(f":{held.port}", ":8080")
    note(f"{page}, {title}", typed, done)
    expect((done.returncode, came), (0, due), f"{page}, {title}: {done.stderr}")
    expect(sorted(os.listdir(tree)), ["client", "desk", "examples"], "what a day leaves behind")
    (found,) = room.glob("tmp.*/desk.db")
    return without_keys(desk.minutes(str(found)))


@pytest.mark.needs("bash", "curl", "openssl", "sbsign")
@pytest.mark.long(30)
def test_the_days_leave_the_same_minutes_but_for_keys_and_files(desk: Program) -> None:
    """README's image is signed on the spot, by a key that is made there, and revoked."""
    given = ("submit", "return", "list-certificate", "revoke-digest")
    days = []
    for page, title in (
        ("docs/FORMATS.md", "A day by curl"), ("README.md", "A day at the desk"),
    ):
        rows = day(desk, page, title)
        assert rows
        words = [row[2].split(" ")[0] for row in rows]
        days.append([[*row[:2], word if word in given else row[2], *row[3:]]
                     for row, word in zip(rows, words)])
    expect(days[1], days[0], "README's day, and that by curl")


# ---- a build system's job and a signing machine's loop

LOOP, EVENING = (
    "".join(f"{line}\n" for line in printed("client/README.md", title))
    for title in ("A signing machine's loop", "An embargo's evening")
)
# The job of an upload of one image.
JOB = "".join(f"{line}\n" for line in printed("docs/TOOLS.md", "A build system")).replace(
    "vmlinuz-*", "shimx64.efi").replace("linux $VERSION", "shim $VERSION $ARCH")
SBAT = with_text(PLAIN, b"sbat,1,SBAT Version,sbat,1,u\n")
SIGNING = pytest.mark.needs("openssl", "osslsigncode", "sbsign")


class Signing:
    """A build system and a signing machine, which know signer.pem."""

    def __init__(self, office: Office) -> None:
        self.office, self.room = office, office.desk.room
        for name in ("images", "bin"):
            (self.room / name).mkdir()
        (self.room / "bin" / "deskctl").symlink_to(DESKCTL)
        shutil.copyfile(EXAMPLES / "tiny.efi", self.room / "shimx64.efi")
        for name in ("signer", "foreign"):
            self_signed(self.room, name, "", RSA)
        shutil.copyfile(self.room / "signer.pem", self.room / "issuer.pem")

    def types(self, name: str, text: str, **more: str) -> str:
        """Runs it as this person, in the room; images are kept there."""
        person = self.office[name]
        path = f"{self.room}/bin:{person.env['PATH']}"
        done = subprocess.run(
            ["sh", "-eu", "-c", text.replace("/srv/images", f"{self.room}/images")],
            env={**person.env, "PATH": path, **more}, cwd=self.room, capture_output=True,
            check=False, timeout=300,
        )
        note(f"{name} types {text}", "", done)
        if done.returncode or b"Traceback" in done.stderr:
            fail(f"README of the client: {done}")
        return done.stdout.decode()

    def job(self, text: str = JOB) -> str:
        return self.types("ann", text, VERSION="16.1", ARCH="amd64")

    def signs(self) -> str:
        return self.types("sid", LOOP, KEY=f"{self.room}/signer.key")

    def approves(self, number: int) -> None:
        for name in ("rita", "raul"):
            self.office[name].does(f"review {number} yes")

    def request(self, number: int) -> dict[str, str]:
        found: dict[str, str] = self.office["ann"].json(f"request {number}")
        return found

    def kept(self) -> set[str]:
        """What is in the signing machine's folder, which is nobody else's."""
        folder = self.office["sid"].folder / "signing"
        expect(folder.stat().st_mode & 0o077, 0, "who may read the signing machine's folder")
        return {one.name for one in folder.iterdir()}


@pytest.fixture
def signing(office: Office) -> Signing:
    return Signing(office)


@SIGNING
@pytest.mark.long(30)
def test_the_job_asks_once_and_the_loop_signs_what_was_asked_for(signing: Signing) -> None:
    """A build job puts another file into an image's place as soon as its SHA-256 is known."""
    for _ in range(2):
        signing.job(JOB.replace("deskctl wait", "echo deskctl wait"))
    titles = [one["title"] for one in signing.office["ann"].json("requests")]
    expect(titles, ["shim 16.1 amd64"], "the requests of a job that is run again")
    signing.approves(1)
    assert "request 1 approved" in signing.job()
    # Before its certificate is listed the desk refuses what was signed, and it is removed.
    signing.signs()
    file = signing.request(1)["file"]
    expect((signing.request(1)["state"], file in signing.kept()), ("approved", False), "the loop")
    assert "image.efi" in signing.kept()
    signing.office["olga"].does("list-certificate signer.pem --yes", err=["CN=signer"])
    program = signing.room / "bin" / "sha256sum"
    program.write_text(
        f'#!/bin/sh\nsaid=$({shutil.which("sha256sum")} "$@")\necho "$said"\n'
        f'case $said in {file}*) [ ! -e other.efi ] || mv other.efi images/{file} ;; esac\n'
    )
    program.chmod(0o700)
    signing.office.file("other.efi", SBAT)
    said = signing.signs()
    program.unlink()
    assert not (signing.room / "other.efi").exists(), "the signing machine hashes nothing"
    returned = signing.office["sid"].folder / "signing" / file
    assert "request 1 signed" in said, said
    expect(signing.request(1)["returned"], sha256(returned.read_bytes()), "what was returned")
    ran("sbverify", "--cert", "signer.pem", returned, cwd=signing.room)


@SIGNING
def test_the_loop_signs_no_other_file_under_an_images_name(signing: Signing) -> None:
    signing.office["olga"].does("list-certificate signer.pem --yes")
    signing.office["ann"].does("submit odd.efi --title another")
    signing.approves(1)
    file = signing.request(1)["file"]
    shutil.copyfile(signing.room / "shimx64.efi", signing.room / "images" / file)
    signing.signs()
    expect((signing.request(1)["state"], file in signing.kept()), ("approved", False), "the loop")
    assert re.search(r"(?m)^signed +0$", signing.office["olga"].does("report"))


# ---- an evening


def typed_words(room: Path, words: list[str]) -> str:
    """A line's words, a star in the last as a shell in the room expands it."""
    last = sorted(str(one.relative_to(room)) for one in room.glob(words[-1]))
    return " ".join([*words[:-1], *last]) if "*" in words[-1] else " ".join(words)


@pytest.mark.long(20)
def test_an_embargos_evening_is_what_the_page_says(office: Office) -> None:
    """Each line by the person that its comment names; a Confirm gets the number of images that it
    bars."""
    room = office.desk.room
    (room / "old").mkdir()
    for name, generation in (("old/grub1.efi", 2), ("old/grub2.efi", 3), ("grub.efi", 4)):
        office.file(name, grub(generation))
        office["ann"].does(f"submit {name} --title {name}")
    for number in "12":
        office["olga"].does(f"revoke --digest {digest(f'0{number}')}")
        office["olga"].does(f"drop {number}")
    office.file("DBXUpdate.bin", update(digest_list([digest("c1")])))
    person: Person = office["olga"]
    for line in EVENING.replace("2026112701", TODAY + "01").splitlines():
        commands, _, comment = line.partition("#")
        person = office.people.get(comment.split(":")[0].strip(), person)
        for words in map(str.split, commands.split("&&")):
            typed = typed_words(room, words[1:])
            if words[1] != "confirm":
                person.does(typed)
                continue
            status, said = person.asked(typed, {"3": "2", "4": "1"}[words[2]])
            assert status == 0 and f"proposal {words[2]} confirmed" in said, said
    states = [row["state"] for row in office["otto"].json("proposals")]
    expect(states, ["dropped", "dropped", "confirmed", "confirmed"], "the proposals")
    assert (room / "dbx.esl").stat().st_size and (room / "minutes.txt").stat().st_size
