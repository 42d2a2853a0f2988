"""deskctl dbx makes a part of dbx for each architecture; together they name what dbx names."""
from __future__ import annotations

import json
from pathlib import Path

import pytest

from checks.support.deskctl import Office
from checks.support.images import certificate_list, digest, digest_list, parted
from checks.support.says import expect
from kovelamiru.deskctl.arches import check, of_arches, parts_of
from kovelamiru.faults import Unreadable
from kovelamiru.siglists import read_lists

X64, ARM64, BOTH, UNNAMED, ABSENT = map(digest, ("11", "22", "33", "44", "55"))
DBX = digest_list([X64, ARM64, BOTH, UNNAMED]) + certificate_list([digest("cc")])
TEXT = "# a comment\n" + "".join(f"{hexadecimal}  {arch}\n" for hexadecimal, arch in (
    (X64.upper(), "x64"), (ARM64, "aa64"), (BOTH, "x64"), (BOTH, "aa64"), (ABSENT, "ia32")))
DUE = {
    "x64": [X64, BOTH, UNNAMED], "arm64": [ARM64, BOTH, UNNAMED], "x86": [UNNAMED],
}


def due(digests: list[str]) -> bytes:
    return digest_list(digests) + certificate_list([digest("cc")])


def published(office: Office) -> None:
    """The desk's dbx is DBX."""
    office.server.does("olga", "/imports/dbx", DBX)
    office.server.does("otto", "/proposals/1/confirm", b"")


@pytest.mark.parametrize("source", ["", " --from dbx.esl"])
def test_each_architecture_has_its_digests_those_of_no_one_and_the_certificates(
    office: Office, source: str
) -> None:
    published(office)
    office.file("dbx.esl", DBX)
    office.file("arches.txt", TEXT.encode())
    office["olga"].does(f"dbx --for-arch arches.txt{source} -o parts", "parts/dbx-x64.esl: ", err=[
        "1 digest that arches.txt doesn't name", "1 that it names aren't in", "none of this is"])
    made = {path.name: path.read_bytes() for path in (office.desk.room / "parts").iterdir()}
    expect(made, {f"dbx-{arch}.esl": due(digests) for arch, digests in DUE.items()}, "the parts")


def test_parts_that_lack_an_entry_or_add_one_are_none() -> None:
    parts = parts_of(read_lists(DBX), of_arches(TEXT.encode()))
    check(DBX, parts)
    for arch, wrong in (("x64", due([BOTH, UNNAMED])), ("x86", due([UNNAMED, ABSENT]))):
        with pytest.raises(Unreadable, match="1 entry of it"):
            check(DBX, {**parts, arch: wrong})


def test_a_text_without_architectures_or_with_a_path_writes_nothing(office: Office) -> None:
    images = {"images": {"../x": [{"authenticodeHash": X64}]}}
    for name, text, told in (
        ("none.txt", f"{X64}\n", "names no digest with its architecture"),
        ("path.json", json.dumps(images), "'../x' is no architecture"),
        ("cut.txt", f"{X64} x64\n{ARM64}\n", "line 2 isn't 64 hexadecimal digits and"),
    ):
        office.file(name, text.encode())
        office["ann"].ends(2, f"dbx --for-arch {name} -o parts", told)
    office.file("cut.esl", DBX[:-1])
    office.file("arches.txt", TEXT.encode())
    office["ann"].ends(2, "dbx --for-arch arches.txt --from cut.esl -o parts", "cut.esl: at ")
    assert not Path(office.desk.room / "parts").exists()
    assert len(parted(DBX)) == 2
