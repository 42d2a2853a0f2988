"""What deskctl says of open proposals, by page/wire/cases/proposals.json; and at a desk: what one
names already is asked about, and a list says what each is."""
from __future__ import annotations

import json
import re
from dataclasses import replace
from typing import Any

import pytest

from checks.support.cases import row_bytes
from checks.support.client_day import SIGNED, TODAY
from checks.support.deskctl import NO_TERMINAL, Office
from checks.support.images import authenticode, digest
from checks.support.wire import wire
from kovelamiru.answers import Proposal
from kovelamiru.certificates import certificate_in
from kovelamiru.proposals import names_words, open_question
from kovelamiru.standing import Standing

Case = dict[str, Any]
# (`<aa>` is a SHA-256 of this byte alone)
CASES: Case = json.loads(
    re.sub("<(..)>", lambda byte: byte[1] * 32, json.dumps(wire("cases/proposals"))))
LOOKS = wire("cases/looks")
LEAF = certificate_in(row_bytes(LOOKS["parts"], LOOKS["parts"]["leaf"]))


def named(case: Case) -> tuple[Any, Any, Any]:
    return (case.get("digests", []), case.get("certificates", []), case.get("components", []))


def proposal_of(case: Case) -> Proposal:
    number, officer = case.get("number", 1), case.get("officer", "olga")
    return Proposal(number, "open", officer, "import", *named(case), None, 0)


@pytest.mark.parametrize("case", CASES["proposes"], ids=lambda case: str(case["name"]))
def test_what_an_open_proposal_names_is_asked_about(case: Case) -> None:
    found = [open_question(proposal_of(one), *named(case)) for one in CASES["open"]]
    assert [text for text in found if text] == case["asks"]


@pytest.mark.parametrize("case", CASES["rows"], ids=lambda case: str(case["name"]))
def test_a_list_says_what_one_entry_is(case: Case) -> None:
    assert LEAF
    listed = {tbs: replace(LEAF, tbs=tbs, common=name) for tbs, name in CASES["listed"].items()}
    now = Standing(certificates=dict(listed))
    assert names_words(proposal_of(case), now, case.get("bars")) == case["says"]


def test_what_is_proposed_already_is_asked_about_and_told_in_the_list(office: Office) -> None:
    olga, otto, image = office["olga"], office["otto"], authenticode(SIGNED)
    office["ann"].does("submit signed.efi --title 'shim 16.1-1 amd64'")
    olga.does("list-certificate certificate.der --yes")
    olga.does(f"revoke --digest {image}", "proposal 1")
    olga.does(f"raise grub 4 --stamp {TODAY}01 --yes", "proposal 2")
    office.file("two.csv", f"kind,value,generation\nsha256,{image},\nsha256,{digest('77')},\n"
                .encode())
    one = f"Proposal 1 of olga names digest {image[:8]}.., and is open."
    office.refuses("otto", f"revoke --digest {image}", f"! {one}", NO_TERMINAL)
    office.refuses("olga", "import two.csv", f"! {one}", NO_TERMINAL)
    otto.does(f"revoke --digest {digest('77')}", "proposal 3")
    otto.does("revoke --certificate certificate.der", "proposal 4")
    otto.does("import two.csv --yes", "proposal 5", err=[f"! {one}", "Proposal 3 of otto names"])
    office.refuses("otto", f"raise grub 3 --stamp {TODAY}02", "Proposal 2 of olga names grub to 3")
    status, said = otto.asked("proposals --state open")
    assert status == 0, said
    # (the age is a count of minutes)
    assert [" ".join(line.split()[:-2]) for line in said.splitlines()[1:]] == [
        f"1 digest {image[:8]}.. of shim 16.1-1 amd64, request 1, allowed today olga open",
        "2 grub to 4 olga open",
        "3 digest 77777777.., which newly bars no known image otto open",
        "4 certificate Boot signer 2026 otto open",
        "5 2 digests otto open",
    ]
    assert all(line.split()[-1].startswith("minute") for line in said.splitlines()[1:]), said
    status, said = otto.asked("proposals --not-mine")
    assert [line.split()[0] for line in said.splitlines()] == ["NUMBER", "1", "2"], said
    assert otto.does("proposals --not-mine").splitlines()[0] == "1\topen\t1\t0\t0\tolga"
    otto.does("confirm 1 --yes")
    office.refuses("otto", f"revoke --digest {image}", f"! {image} is revoked already.")
