"""What efitools writes is imported, and the lists of some architectures; files cut at each length;
more entries than an import may have. Each kind of a file is in test_cases.py."""
from __future__ import annotations

import json
import struct
from pathlib import Path
from typing import Any

import pytest

from checks.support.between import NO_ANSWER, Between
from checks.support.cases import files
from checks.support.certificates import RSA, self_signed
from checks.support.client_day import TODAY
from checks.support.deskctl import Office, Person
from checks.support.images import digest, digest_list
from checks.support.says import expect
from checks.support.tools import ran
from kovelamiru.faults import WORDS, Stop
from kovelamiru.pem import certificate_of
from kovelamiru.revocations import revocations_of

PKCS7 = bytes.fromhex("9dd2af4adf68ee498aa9347d375665a7")
ATTRIBUTES = b"\x27\0\0\0"
ONE, TWO = digest("c1"), digest("c2")
LISTS = digest_list([ONE, TWO])


def update(lists: bytes) -> bytes:
    """An authenticated update, as UEFI 2.10 has it in section 8.2.6."""
    when = struct.pack("<HBBBBBBIhBB", 2024, 5, 6, 7, 8, 9, 0, 0, 0, 0, 0)
    head = struct.pack("<IHH", 24 + 90, 0x0200, 0x0EF1)
    return when + head + PKCS7 + b"P" * 90 + lists


@pytest.mark.needs("openssl", "cert-to-efi-sig-list", "sign-efi-sig-list")
def test_what_efitools_writes_is_told_and_proposed(office: Office) -> None:
    """A list of a certificate and of a digest, in a signed update; it is refused where it is
    cut."""
    room = office.desk.room
    self_signed(room, "kek", "", RSA)
    ran("cert-to-efi-sig-list", "-g", "77fa9abd-0359-4d32-bd60-28f4e78f784b", "kek.pem", "kek.esl",
        cwd=room)
    lists = (room / "kek.esl").read_bytes() + digest_list([digest("e1")])
    office.file("tools.esl", lists)
    ran("sign-efi-sig-list", "-t", "2026-11-27 10:11:12", "-k", "kek.key", "-c", "kek.pem", "dbx",
        "tools.esl", "tools.auth", cwd=room)
    signed = (room / "tools.auth").read_bytes()
    tbs = certificate_of(str(room / "kek.der")).tbs
    office.file("tools.auth", signed)
    office["olga"].does("import tools.auth", err=[
        "an authenticated update", "of 2026-11-27", "certificates  1", "digests       1"])
    expect(office.calls()[-1][3], f"import 0 0 {digest('e1')} {tbs} -", "the text in the minutes")
    office.file("cut.auth", signed[: signed.index(lists[:16]) + 20])
    office.refuses("olga", "import cut.auth", "a signature list is cut")


def test_images_of_an_architecture_are_taken_alone(office: Office) -> None:
    one, other = ({"authenticodeHash": digest(byte), "hashType": "SHA256"} for byte in ("a1", "a3"))
    office.file("dbx.json", json.dumps({"images": {"x64": [one], "arm64": [other]}}).encode())
    office["olga"].does("import dbx.json --arch aarch64", err=[
        "taken: arm64", "left out      1 images of other architectures"])
    expect(office.calls()[-1][3], f"import 0 0 {digest('a3')} - -", "the text in the minutes")
    office.refuses("olga", "import dbx.json --arch riscv64", "It has: arm64, x64")


def test_dry_run_needs_no_desk(office: Office) -> None:
    office.file("c.esl", digest_list([ONE]))
    del office["olga"].env["DESK_URL"]
    office["olga"].does("import c.esl --dry-run", "digests       1\n", "no desk is named")


# ---- cut


def read_cut(path: Path, data: bytes) -> int | None:
    """How many entries a cut file has; nothing where it is refused, in words."""
    path.write_bytes(data)
    try:
        return revocations_of(str(path), None).entries()
    except Stop as stop:
        assert (stop.status, bool(str(stop))) == (WORDS, True)
        return None


# The lengths at which a cut file has no entry, but is one: attributes alone are a variable without
# lists, and so is an update without them.
CUT: dict[str, tuple[bytes, list[int]]] = {
    "lists": (LISTS, []), "an update": (update(LISTS), [40 + 90]),
    "a variable": (ATTRIBUTES + LISTS, [4]),
    "a variable of an update": (ATTRIBUTES + update(LISTS), [4, 4 + 40 + 90]),
}


@pytest.mark.parametrize("name", CUT)
def test_a_cut_file_is_refused_in_words(name: str, tmp_path: Path) -> None:
    """It is never another kind's, and never has fewer entries."""
    data, whole = CUT[name]
    expect(read_cut(tmp_path / "cut", data), 2, "the entries of the whole file")
    for length in range(len(data)):
        found = read_cut(tmp_path / "cut", data[:length])
        expect(found, 0 if length in whole else None, f"cut at {length} of {len(data)}")


def test_a_cut_certificate_is_refused_in_words(tmp_path: Path) -> None:
    signer: Any = next(one for one in files("certificates") if one.get("tbs"))
    whole = signer["bytes"] if signer["bytes"][:1] == b"\x30" else b""
    assert whole
    path = tmp_path / "cut"
    for length in range(len(whole)):
        path.write_bytes(whole[:length])
        with pytest.raises(Stop) as stop:
            certificate_of(str(path))
        expect(stop.value.status, WORDS, f"cut at {length}")


# ---- parts


@pytest.mark.long(40)
def test_more_entries_than_an_import_may_have_are_several_proposals(
    office: Office, between: Between
) -> None:
    """Stopped between them, the same command goes on, and none is made twice."""
    many = [f"{number:064x}" for number in range(1, 25_001)]
    office.file("many.esl", digest_list(many))
    rows = "".join(f"sha256,{one},\n" for one in many[:12_000])
    office.file("many.csv", f"kind,value,generation\n{rows}sbat,grub,3\n".encode())
    olga: Person = office["olga"].at(between.url)
    between.loses = [lambda request, ask: ask(request), NO_ANSWER]
    olga.ends(3, "import many.esl --retries 0", "3, each a proposal of its own",
              "Run the same command again")
    olga.does("import many.esl", "proposal 1 proposed\nproposal 2 proposed\nproposal 3 proposed",
              err=["taking up"])
    olga.does(f"import many.csv --stamp {TODAY}01 --yes",
              "proposal 4 proposed\nproposal 5 proposed")
    named = [row[3].split(" ")[3] for row in office.calls()]
    sizes = [len(one.split(",")) for one in named]
    expect(sizes, [10_000, 10_000, 5_000, 9_999, 2_001], "how many each names")
    assert ",".join(named[:3]) == ",".join(many), "the parts aren't the whole"
    raised = [row[3].split(" ")[5] for row in office.calls()[3:]]
    expect((raised, olga.pending()), (["3:grub", "-"], []), "what the parts raise, the journal")
