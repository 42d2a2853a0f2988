"""A desk in a file, what desk-publish makes of it, and who looks at that."""
from __future__ import annotations

import calendar
import os
import re
import shutil
import stat
import subprocess
import time
from pathlib import Path
from typing import Any, Callable, Sequence

from checks.support.images import OWNER, sha256
from checks.support.messages import token
from checks.support.program import Program, told
from checks.support.says import expect, note
from checks.support.steps import Step, confirms, named, proposes, raising, takes
from checks.support.tools import ROOT, ends, ran

PUBLISH = ROOT / "packaging" / "desk-publish"
PEOPLE = ("ann/submitter", "olga/officer", "otto/officer", "oscar/officer")
SIGNERS = "mirror.signers"
# A user who has nothing to do with the desk; only root can be one.
NOBODY: dict[str, Any] = {"user": 65534, "group": 65534, "extra_groups": ()}
if os.geteuid() != 0:
    NOBODY = {}
# What is published beside SHA256SUMS and minutes.txt, without a signing command and a key.
SUMMED = {
    "dbx.esl", "db.esl", "level.csv", "audit.txt", "shim-dbx.esl", "index.html", "dbx.json",
    "checkpoint.txt",
}


# What is the desk's own, by its subcommands.
FILES = {"minutes": "minutes.txt", "dbx": "dbx.esl", "db": "db.esl", "level": "level.csv"}


def number(of: int) -> str:
    """A digest, by its number."""
    return f"{of:064}"


def spelled(seconds: float) -> str:
    """A moment, as SHA256SUMS has it."""
    return time.strftime("%Y-%m-%dT%H:%M:%SZ", time.gmtime(seconds))


def key_of(sums: str, name: str) -> str:
    """What stands behind this word in the head of SHA256SUMS."""
    found = re.findall(f"^# {name} (.*)$", sums, re.M)
    expect(len(found), 1, f"lines `# {name}` in {sums}")
    return str(found[0])


class Place:
    """A test's folder with a desk in a file, and the folder in which it is published."""

    def __init__(self, desk: Program) -> None:
        self.desk, self.room, self.out = desk, desk.room, desk.room / "out"
        self.db, self.link = desk.at("desk.db"), self.out / "published"
        self.out.mkdir(exist_ok=True)
        self.room.chmod(0o711)
        self.keys = self.proposals = 0

    def copied(self, desk: Program) -> Place:
        """All of it in the folder of another test."""
        shutil.copytree(self.room, desk.room, symlinks=True, dirs_exist_ok=True)
        made = Place(desk)
        made.keys, made.proposals = self.keys, self.proposals
        return made

    # ---- calls

    def key(self) -> str:
        self.keys += 1
        return f"k{self.keys}"

    def does(self, step: Step) -> None:
        self.desk.answers(self.db, step.given, step.due, f"{step.given[:80]!r}")

    def lists(self, der: bytes) -> None:
        """olga lists a certificate."""
        self.does(takes("olga", self.key(), "/db/certificates", der, {"reply": "listed"}))

    def unlists(self, digest: str) -> None:
        body = named(digest, kind="certificate")
        self.does(takes("olga", self.key(), "/db/unlist", body, {"reply": "unlisted"}))

    def proposes(self, who: str, path: str, body: bytes, *fields: tuple[str, str]) -> int:
        self.proposals += 1
        self.does(proposes(who, self.key(), path, body, self.proposals, *fields))
        return self.proposals

    def confirms(self, given: int, digests: int, certificates: int, components: int) -> None:
        """By otto."""
        counts = (digests, certificates, components)
        self.does(confirms("otto", self.key(), given, *counts, 0))

    def revokes(self, digest: str, what: str = "digests") -> None:
        """olga proposes, and otto confirms."""
        given = self.proposes("olga", f"/dbx/{what}", named(digest))
        self.confirms(given, int(what == "digests"), int(what != "digests"), 0)

    def raises(self, component: str, generation: int, stamp: int) -> None:
        given = self.proposes("olga", "/level", raising(component, generation, stamp))
        self.confirms(given, 0, 0, 1)

    # ---- runs

    def publish(
        self, status: int, says: str, *words: str | Path, by: Path = PUBLISH,
        of: Sequence[str] | None = None, env: dict[str, str] | None = None,
    ) -> str:
        """A run of desk-publish ends so, and says this; what it said in all."""
        own = ("out/published", "--owner", OWNER, "--program", self.desk.path)
        where = of or ("--db", "desk.db")
        return ends(status, says, by, *own, *where, *words, cwd=self.room, env=env)

    def changed(self, name: str, *edits: tuple[str, str, str], tool: Path = PUBLISH) -> Path:
        """A desk-publish of its own, or another tool, whose modules have these edits: module,
        pattern, text."""
        folder = self.room / name
        folder.mkdir()
        shutil.copytree(ROOT / "python" / "kovelamiru", folder / "kovelamiru")
        shutil.copytree(ROOT / "page" / "wire", folder / "kovelamiru" / "wire")
        for module, pattern, text in edits:
            path = folder / "kovelamiru" / module
            made, count = re.subn(pattern, text, path.read_text(), flags=re.M)
            expect(count, 1, f"places for {pattern} in {module}")
            path.write_text(made)
        return Path(shutil.copy(tool, folder / tool.name))

    def script(self, name: str, text: str) -> str:
        """The path of a program in sh, whose $0 is in this folder."""
        path = self.room / name
        path.write_text(f"#!/bin/sh\n{text}\n")
        path.chmod(0o755)
        return str(path)

    def lying(self, **files: bytes) -> str:
        """A desk that writes these files for subcommands of their names."""
        for name, data in files.items():
            self.desk.file(f"lie.{name}", data)
        text = f'[ ! -e {self.room}/lie."$1" ] || exec cat {self.room}/lie."$1"'
        return self.script("lying", f'{text}\nexec {self.desk.path} "$@"')

    def anybody(self, *words: str | Path, given: bytes = b"") -> tuple[int, bytes]:
        """How a command of somebody else's ends in the published folder, and what it writes."""
        done = subprocess.run(
            words, cwd=self.link, input=given, stdout=subprocess.PIPE, stderr=subprocess.STDOUT,
            timeout=60, check=False, **NOBODY,
        )
        note(f"{words} by somebody else", given, (done.returncode, done.stdout))
        return done.returncode, done.stdout

    # ---- what is published

    def sums(self) -> str:
        return (self.link / "SHA256SUMS").read_text()

    def dated(self, seconds: float) -> str:
        """What is published gets a date, so long from now."""
        date = spelled(time.time() + seconds)
        made = re.sub("(?m)^# date .*", f"# date {date}", self.sums())
        (self.link / "SHA256SUMS").write_text(made)
        if (self.link / "SHA256SUMS.sig").exists():
            self.signs_sums()
        return date

    def signs_sums(self) -> None:
        """The publisher's key signs the sums as they are now."""
        (self.link / "SHA256SUMS.sig").unlink()
        words = "ssh-keygen -q -Y sign -f publisher -n kovelamiru-publish".split()
        ran(*words, self.link / "SHA256SUMS", cwd=self.room)

    def named(self) -> set[str]:
        """The names that have sums."""
        return set(re.findall("^[0-9a-f]{64}  (.*)$", self.sums(), re.M))

    def left(self) -> list[str]:
        """What broken runs left beside the folders."""
        return [one for one in os.listdir(self.out) if one.endswith((".new", ".link", ".sign"))]

    def shows(self, calls: int, minutes: int = 0o600, db: bytes | None = None) -> None:
        """What is published is whole for anybody, and is the desk's after so many calls. The desk's
        db may be another one, if its change waits for consent."""
        expect(self.anybody("sha256sum", "--quiet", "--strict", "-c", "SHA256SUMS"), (0, b""), "")
        files = {one.name: one for one in self.link.iterdir()}
        signed = {"SHA256SUMS.sig", "checkpoint.txt.sig"} & set(files)
        if signed:
            expect(len(signed), 2, "signatures")
            self.signed(self.sums().encode())
        summed = self.named()
        expect(SUMMED - summed, set(), "files without a sum")
        others = {"SHA256SUMS", "minutes.txt"} | signed
        expect(set(files), summed | others, "what is published")
        modes = {name: stat.S_IMODE(path.lstat().st_mode) for name, path in files.items()}
        expect(modes, {**dict.fromkeys(files, 0o644), "minutes.txt": minutes}, "modes")
        expect(stat.S_IMODE(self.link.stat().st_mode), 0o755, "the folder's mode")
        expect(key_of(self.sums(), "calls"), str(calls), "the calls of the sums")
        expect(key_of(self.sums(), "folder"), os.readlink(self.link), "the folder of the sums")
        date = calendar.timegm(time.strptime(key_of(self.sums(), "date"), "%Y-%m-%dT%H:%M:%SZ"))
        assert abs(date - time.time()) < 86400, f"the date {spelled(date)}"
        exports = {name: files[file].read_bytes() for name, file in FILES.items()}
        expect(exports["minutes"].count(b"\n"), calls, "lines of the minutes")
        if db is not None:
            exports["db"] = db
        expect(files["audit.txt"].read_bytes(), told(exports), "audit.txt")

    def signed(self, sums: bytes, status: int = 0) -> None:
        """Anybody finds that the publisher signed these sums, or didn't."""
        asked = f"ssh-keygen -Y verify -f ../../{SIGNERS} -I desk.example.org"
        words = f"{asked} -n kovelamiru-publish -s SHA256SUMS.sig".split()
        ended, said = self.anybody(*words, given=sums)
        expect(ended, status, f"{words} of {sums!r}: {said!r}")

    def is_desks(self) -> None:
        """Each published file is the desk's."""
        for name, file in FILES.items():
            expect((self.link / file).read_bytes(), self.desk.gives(name, self.db), file)


Stage = Callable[..., Place]


def made_key(room: Path, name: str) -> str:
    """A new SSH key; its public line."""
    ran("ssh-keygen", "-q", "-t", "ed25519", "-N", "", "-C", name, "-f", name, cwd=room)
    return " ".join((room / f"{name}.pub").read_text().split()[:2])


def publisher(place: Place) -> None:
    """A key that signs what is published, and the file that says whose it is."""
    uses = 'namespaces="kovelamiru-publish,kovelamiru-checkpoint"'
    line = f"desk.example.org {uses} {made_key(place.room, 'publisher')}\n"
    place.desk.file(SIGNERS, line.encode())


def made_certificate(room: Path, name: str) -> bytes:
    """A new certificate NAME.pem with its key NAME.key; its DER."""
    ran(
        "openssl", "req", "-x509", "-newkey", "rsa:2048", "-nodes", "-days", "2", "-subj",
        f"/CN={name}", "-keyout", f"{name}.key", "-out", f"{name}.pem", cwd=room,
    )
    return ran("openssl", "x509", "-in", f"{name}.pem", "-outform", "DER", cwd=room)


def private_token(place: Place, name: str) -> str:
    """The path of a file with this person's token, which nobody else can read."""
    path = place.desk.file(f"{name}.token", f"{token(name)}\n".encode())
    os.chmod(path, 0o600)
    return path


def tbs_of(room: Path, der: bytes) -> str:
    """The SHA-256 of a certificate's TBSCertificate, by openssl."""
    parts = ran("openssl", "asn1parse", "-inform", "DER", given=der).decode().splitlines()
    at = str(int(parts[1].split(":")[0]))
    ran("openssl", "asn1parse", "-inform", "DER", "-strparse", at, "-noout", "-out", room / "tbs",
        given=der)
    return sha256((room / "tbs").read_bytes())
