"""A desk's exports, as other programs read them.

A desk revokes 300 digests and two certificates, in no order. `desk list` finds the lists of dbx, and
dbxtool each revoked digest; it reads neither more than 2,000 entries nor a dbx with certificates
alone. `desk list` reads what hash-to-efi-sig-list writes for an image of efitools, which holds the
digest that `desk facts` prints. What efitools reads of dbx, db and shim's form is in
checks/publish."""
from __future__ import annotations

from pathlib import Path

import pytest

from checks.conftest import NewDesk
from checks.support.images import sha256
from checks.support.program import Program
from checks.support.says import expect
from checks.support.steps import confirms, proposes
from checks.support.tools import ran

# Digests that don't ascend.
REVOKED = [sha256(f"revoked {number}".encode()) for number in range(1, 301)]
CERTIFICATES = [sha256(f"certificate {number}".encode()) for number in (1, 2)]


@pytest.mark.needs("dbxtool")
def test_dbxtool_lists_each_revoked_digest(desk: Program, new_desk: NewDesk) -> None:
    """The SHA256 list has 28 bytes and 48 a digest."""
    path = new_desk()
    rows = [*(f"sha256,{one}," for one in REVOKED), *(f"x509_sha256,{one}," for one in CERTIFICATES)]
    csv = "\n".join(["kind,value,generation", *rows, ""]).encode()
    step = proposes("olga", "csv", "/imports/csv", csv, 1)
    desk.answers(path, step.given, step.due, "the proposal")
    expect(desk.gives("dbx", path), b"", "dbx of what is only proposed")
    step = confirms("otto", "k1", 1, 300, 2, 0, 0)
    desk.answers(path, step.given, step.due, "the Confirm")
    dbx = desk.file("dbx", desk.gives("dbx", path))
    desk.ends(0, b"0 sha256 300\n14428 x509_sha256 2\n", b"", "list", dbx)
    said = ran("dbxtool", "-l", "-d", dbx).decode().lower()
    expect([one for one in REVOKED if said.count(one) != 1], [], "digests that dbxtool lacks")


@pytest.mark.needs("hash-to-efi-sig-list")
def test_desk_list_reads_what_efitools_makes_of_an_image(desk: Program) -> None:
    image = next(Path("/usr/lib/efitools").rglob("HelloWorld.efi"), None)
    assert image, "efitools has no HelloWorld.efi"
    file = desk.at("made")
    ran("hash-to-efi-sig-list", image, file)
    desk.ends(0, b"0 sha256 1\n", b"", "list", file)
    hashed = Path(file).read_bytes()[-32:].hex()
    assert f"signing {hashed}\n".encode() in desk.gives("facts", image)
