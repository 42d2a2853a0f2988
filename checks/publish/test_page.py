"""index.html and dbx.json are those of the lists, with no word that a person typed; and the
checkpoint is looked at as docs/AUDIT.md says."""
from __future__ import annotations

import os
import re
import shutil
import subprocess

import pytest

from checks.publish.place import SIGNERS, Place, Stage, made_certificate, number, publisher, tbs_of
from checks.publish.reading import reads
from checks.support.images import digest, sha256
from checks.support.messages import token
from checks.support.program import Program
from checks.support.says import expect
from checks.support.steps import explains, lists, submits, takes
from checks.support.tools import EXAMPLES, ROOT, needs

pytestmark = pytest.mark.needs("openssl", "ssh-keygen")
# What a person types, as the page may not have it: markup in a component's name; names, keys,
# titles, the SHA-256 of tokens.
COMPONENT = '<script>alert(1)</script>&amp;"x"'
PRIVATE = ["olga", "k-olga", "<b>secret", "secret", "k-secret", sha256(token("olga").encode())]
KEY = ("--key", "publisher")


def publishes(place: Place, name: str, *words: str) -> None:
    """Under this name the folder is found again."""
    place.publish(0, ": published", *words)
    (place.room / name).symlink_to(f"out/{os.readlink(place.link)}")


@pytest.fixture(scope="session")
def page_stage(stage: Stage, founded_stage: Place) -> Place:
    """Publications `one` and `two`, and what comes after them: more than a page names, a raised
    generation, an unlisted certificate."""
    needs("openssl", "ssh-keygen")
    made, digests = stage("page", founded_stage), []
    publisher(made)
    image = (EXAMPLES / "tiny.efi").read_bytes()
    made.does(submits("ann", "k-secret", image, "<b>secret title", 1))
    for name in ("stays", "gone", "good"):
        der = made_certificate(made.room, name)
        digests.append(tbs_of(made.room, der))
        made.does(takes("olga", f"k-olga-{name}", "/db/certificates", der, {"reply": "listed"}))
    made.revokes(number(1))
    publishes(made, "one", "--first")
    made.raises(COMPONENT, 3, 2026112701)
    made.raises("grub", 2, 2026112702)
    made.revokes(digests[0], "certificates")
    made.revokes(number(2))
    publishes(made, "two", *KEY)
    rows = "".join(f"sha256,{number(int(f'1{one}'))},\n" for one in range(1, 121))
    table, stamp = f"kind,value,generation\n{rows}".encode(), ("Desk-Stamp", "2026112703")
    made.confirms(made.proposes("olga", "/imports/csv", table, stamp), 120, 0, 0)
    made.raises("grub", 3, 2026112704)
    made.unlists(digests[1])
    return made


@pytest.fixture
def page(desk: Program, page_stage: Place) -> Place:
    """The next publication has the date of `two`, which is ahead, so two runs have one date."""
    made = page_stage.copied(desk)
    made.dated(3600)
    return made


def reads_now(page: Place) -> None:
    reads(page.link.resolve(), (page.room / "two").resolve(), PRIVATE)


def test_they_are_those_of_the_lists_and_tell_what_came(desk: Program, page_stage: Place) -> None:
    page = page_stage.copied(desk)
    one, two = ((page.room / name).resolve() for name in ("one", "two"))
    reads(one, None, PRIVATE)
    reads(two, one, PRIVATE)
    page.publish(0, ": published", *KEY, "--public-minutes")
    reads_now(page)


def test_reasons_are_in_the_page_alone_where_they_are_public(page: Place) -> None:
    """Of what was confirmed since, and without a name; a reason of another proposal isn't there."""
    for key, given, text in (
        ("r1", 6, "CVE-2023-40547 <b>"), ("r2", 6, "two of them"), ("r3", 3, "olga's secret")
    ):
        page.does(explains("olga", f"k-secret-{key}", given, text))
    shutil.copytree(page.out, page.room / "first", symlinks=True)
    for option, wanted in (("", []), ("--public-reasons", ["index.html"])):
        shutil.rmtree(page.out)
        shutil.copytree(page.room / "first", page.out, symlinks=True)
        page.publish(0, ": published", *KEY, *filter(None, [option]))
        reads_now(page)
        shown = {name: (page.link.resolve() / name).read_text() for name in
                 ("index.html", "dbx.json", "SHA256SUMS", "audit.txt")}
        expect([name for name, text in shown.items() if "CVE" in text], wanted, "who has reasons")
    assert "<li>120 new digests: CVE-2023-40547 &lt;b&gt;; two of them</li>" in shown["index.html"]


def test_two_runs_with_one_date_make_the_same_bytes(page: Place) -> None:
    words = (*KEY, "--public-minutes")
    shutil.copytree(page.out, page.room / "first", symlinks=True)

    def run() -> dict[str, bytes]:
        shutil.rmtree(page.out)
        shutil.copytree(page.room / "first", page.out, symlinks=True)
        page.publish(0, ": published", *words)
        return files()

    def files() -> dict[str, bytes]:
        folders = [one for one in page.out.iterdir() if one.is_dir() and not one.is_symlink()]
        return {f"{at.name}/{one.name}": one.read_bytes() for at in folders for one in at.iterdir()}

    first = run()
    assert len(first) > 30
    expect(run(), first, "the second run")
    page.publish(0, ": nothing new", *words)
    expect(files(), first, "after a run with nothing new")


# ---- the checkpoint

PART = (ROOT / "docs" / "AUDIT.md").read_text(encoding="utf-8").split("\n## Checkpoints\n", 1)[1]
TYPED = [one[4:] for one in PART.split("\n## ", 1)[0].split("\n") if one.startswith("    ")]


def looked(place: Place, status: int, **others: bytes) -> str:
    """How the lines of AUDIT.md end beside these files, and what they say."""
    for name in ("checkpoint.txt", "checkpoint.txt.sig"):
        place.desk.file(name, (place.link / name).read_bytes())
    place.desk.file("minutes.txt", place.desk.gives("minutes", place.db))
    place.desk.file("SIGNERS", (place.room / SIGNERS).read_bytes())
    for name, data in others.items():
        place.desk.file(name.replace("_", "."), data)
    done = subprocess.run(
        ["sh", "-eu", "-c", "\n".join(TYPED)], cwd=place.room, stdout=subprocess.PIPE,
        stderr=subprocess.STDOUT, timeout=60, check=False,
    )
    expect(done.returncode, status, f"{TYPED} beside {others}: {done.stdout!r}")
    return done.stdout.decode()


def test_a_checkpoint_is_of_the_minutes_that_begin_with_its_own(page: Place) -> None:
    """Not of others, not with another number, nor by the signature of something else."""
    page.publish(0, ": published", *KEY)
    expect(len(TYPED), 5, "lines of AUDIT.md")
    page.does(lists("otto", "k-later", digest("09")))
    told = re.findall("(?m)^minutes .*$", (page.link / "audit.txt").read_text())
    assert told[0] in looked(page, 0).splitlines()
    minutes = page.desk.gives("minutes", page.db)
    looked(page, 1, minutes_txt=minutes.replace(b"olga", b"otto", 1))
    checkpoint = (page.link / "checkpoint.txt").read_bytes()
    looked(page, 255, checkpoint_txt=re.sub(rb"(?m)^calls .*", b"calls 5", checkpoint))
    looked(page, 255, checkpoint_txt_sig=(page.link / "SHA256SUMS.sig").read_bytes())
