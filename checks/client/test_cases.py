"""deskctl over the tables of page/wire/cases: files of revocations and of certificates, doubts, and
what is said of images and certificates. At a desk each file that is read is proposed as the table
has it, and no other is sent."""
from __future__ import annotations

import datetime
import re
from pathlib import Path
from typing import Any, Iterable

import pytest

from checks.support.cases import files, row_bytes
from checks.support.client_day import TODAY
from checks.support.deskctl import Office
from checks.support.images import digest as of_byte
from checks.support.says import expect
from checks.support.tools import ROOT
from checks.support.wire import REFUSALS, wire
from kovelamiru import compare, doubts, pe, pem, pkcs7, refusals, revocations, signer, standing
from kovelamiru.allowing import allow_doubts
from kovelamiru.answers import Request, shaped
from kovelamiru.beside import level_lines
from kovelamiru.certificates import Certificate, certificate_in
from kovelamiru.facts import Facts
from kovelamiru.faults import Stop
from kovelamiru.questions import QUESTIONS

Case = dict[str, Any]
IMPORTS, CERTIFICATES = files("imports"), files("certificates")
DOUBTS, LOOKS = wire("cases/doubts"), wire("cases/looks")
ROUTES = {"lists": "/imports/dbx", "csv": "/imports/csv", "level": "/imports/level",
          "microsoft": "/imports/csv", "hashes": "/imports/csv"}
BROUGHT: dict[str, str] = wire("words")["brought"]
# What is set aside, by the words that deskctl has for it.
ASIDE = {"versions": "svn", "flat": "flat", "certificates": "certificate",
         "images without": "other"}
# The words of the tables, by those of deskctl.
WHY = {
    "empty": "it is empty", "nothing": "names nothing that the desk takes",
    "list": "a signature list", "update": "authenticated update", "utf-16": "text in UTF-16",
    "header": "no header that is known", "csv": "a record of the CSV", "json": "the JSON",
    "level": "isn't sbat,1,STAMP", "levels": "it isn't a level alone", "hash": "line 2 isn't 64",
    "certificate": "it is a certificate", "unknown": "no file of revocations",
    "two": "holds 2 certificates",
    "key": "holds a private key",
    "not": "is no certificate|holds 0 certificates|the PEM is spoiled",
}
ASKS = {
    "file": "is the SHA-256 of the whole (returned )?file",
    "certificate": "and no image's digest|is the fingerprint of", "half": "Revoke both",
    "fingerprint": "is the fingerprint of", "bits": "16 bits",
    "image": "and no certificate|is the SHA-256 of the whole|doesn't carry it",
    "revoked": "is revoked already|It is revoked at this desk", "far": "rises from",
    "name": "Is it spelt right", "sbat": "sbat itself stays", "date": "a date|more than a year",
    "rsa": "Its key isn't RSA", "ca": "It says that it is a CA's",
    "issuer": "its issuer's name is revoked",
}
LIKE = {
    "file": "the one that was submitted", "returned": "the signed one that was returned",
    "image": "another signature table", "padding": "zero bytes at its end",
    "other": "Another image",
}
HOLDS = {"same": "the image's digest", "digest": "`digest`", "signing": "`signing`",
         "other": "the digest of other bytes"}


def each(cases: Iterable[Case]) -> pytest.MarkDecorator:
    return pytest.mark.parametrize("case", cases, ids=lambda case: str(case["name"]))


def asks(told: list[str], wanted: list[str]) -> None:
    """What is asked is this, each once."""
    met = [name for name in wanted if any(re.search(ASKS[name], text) for text in told)]
    expect((len(told), met), (len(wanted), wanted), f"what is asked: {told}")


# ---- files


def aside_of(counts: dict[str, int]) -> dict[str, int]:
    found: dict[str, int] = {}
    for words, count in counts.items():
        name = next((name for begin, name in ASIDE.items() if words.startswith(begin)), words)
        found[name] = found.get(name, 0) + count
    return found


def named(case: Case) -> Case:
    """What a case says, with what it leaves out."""
    return {
        "digests": set(case.get("digests", [])), "certificates": set(case.get("certificates", [])),
        "components": dict(case.get("components", [])), "skipped": case.get("skipped", 0),
    }


@each(IMPORTS)
def test_a_file_of_revocations_is_read(case: Case, tmp_path: Path) -> None:
    path = tmp_path / str(case.get("file", "case"))
    path.write_bytes(case["bytes"])
    try:
        found = revocations.revocations_of(str(path), None)
    except Stop as fault:
        assert re.search(WHY[case.get("refused", "empty")], str(fault)) and "refused" in case
        said = "\n".join([str(fault), *fault.more])
        if "stamps" in case:
            text = BROUGHT["levels"].format(stamps=case["stamps"])
            assert text in said and BROUGHT["alone"] in said, said
        brought = [name for name in ("certificate", "mok", "kek")
                   if BROUGHT[name].split("{")[0] in said]
        expect(brought, case.get("says", []), "what is said of what was brought")
        return
    refused = "nothing" if found.names_nothing() else None
    expect(refused, case.get("refused"), "what it is refused for")
    if "refused" not in case:
        components: dict[str, int] = {}
        for name, generation in found.components:
            components[name] = max(generation, components.get(name, 0))
        expect({
            "digests": set(found.digests), "certificates": set(found.certificates),
            "components": components, "stamp": found.stamp, "timed": found.timed,
            "skipped": sum(found.passed.values()), "aside": aside_of(found.aside),
            "route": found.route,
        }, {
            **named(case), "stamp": case.get("stamp"), "timed": case.get("timed", 0),
            "aside": case.get("aside", {}), "route": ROUTES[case["kind"]],
        }, "what it names")
        if found.body:
            expect(found.body, case.get("body", case["bytes"]), "the bytes that are sent")


@each(wire("cases/imports")["levels"])
def test_a_level_is_told_beside_the_desks(case: Case) -> None:
    desk = case["desk"]
    told = level_lines(case["stamp"], dict(case["names"]), desk["stamp"], dict(desk["names"]))
    expect(told, case["says"], "what is said")


@each(files("allows"))
def test_what_looks_like_a_list_of_the_allowed_is_asked_about(case: Case, tmp_path: Path) -> None:
    (tmp_path / "case").write_bytes(case["bytes"])
    listed, parts = case.get("listed", {}), wire("cases/imports")["parts"]
    ders = (row_bytes(parts, parts[name]) for name in listed.get("certificates", []))
    now = standing.Standing(
        digests=set(map(of_byte, listed.get("digests", []))),
        certificates={one.tbs: one for one in map(certificate_in, ders) if one},
        revoked_digests=set(map(of_byte, case.get("revoked", []))),
        owners={wire("cases/imports")["owner"]},
    )
    found = revocations.revocations_of(str(tmp_path / "case"), None)
    words = {"name": case["file"], "count": case.get("count"), "names": case.get("names")}
    due = [QUESTIONS["import"][name].format(**words) for name in case["asks"]]
    assert allow_doubts(case["file"], found, now) == due


@each(CERTIFICATES)
def test_a_certificate_is_read(case: Case, tmp_path: Path) -> None:
    (tmp_path / "case").write_bytes(case["bytes"])
    try:
        one = pem.certificate_of(str(tmp_path / "case"))
    except Stop as fault:
        assert "refused" in case and re.search(WHY[case["refused"]], str(fault)), fault
        return
    found = {"tbs": one.tbs, "subject": one.subject, "issuer": one.issuer, "key": one.key,
             "ca": one.authority}
    expect(found, {name: case.get(name) for name in found}, "the certificate")


@pytest.mark.long(30)
def test_each_file_that_is_read_is_proposed_and_no_other(office: Office) -> None:
    olga, sent = office["olga"], []
    for case in IMPORTS:
        office.file("case", case["bytes"])
        if "refused" in case:
            olga.ends(2, "import case --yes")
            continue
        raises = case["kind"] == "csv" and "components" in case
        olga.does("import case --yes" + f" --stamp {TODAY}01" * raises)
        sent.append(case)
    for case in CERTIFICATES:
        if "refused" in case:
            office.file("case", case["bytes"])
            olga.ends(2, "list-certificate case --yes")
    found = office.calls()
    expect(len(found), len(sent), "the count of proposals")
    for case, row in zip(sent, found):
        _, _, passed, *lists = row[3].split(" ")
        digests, certificates, components = (set(one.split(",")) - {"-"} for one in lists)
        # (the greatest generation of a name is the last, as both have one sort order)
        pairs = [(name, int(of)) for of, name in (one.split(":") for one in components)]
        expect({"digests": digests, "certificates": certificates, "skipped": int(passed),
                "components": dict(sorted(pairs))}, named(case), f"the minutes: {case['name']}")


# ---- doubts


@each(DOUBTS["cases"])
def test_a_slip_is_asked_about(case: Case, monkeypatch: pytest.MonkeyPatch) -> None:
    noon = datetime.datetime.fromisoformat(f"{DOUBTS['today']}T12:00:00+00:00")
    monkeypatch.setattr(doubts, "now", lambda: noon)
    desk = DOUBTS["desk"]
    known = doubts.Known(set(case.get("digests", [])), set(case.get("certificates", [])))
    for request in desk["requests"]:
        known.request(shaped(Request, request))
    for where, name in (("listed", "db"), ("revoked", "dbx")):
        for digest in desk[where]["digests"]:
            known.entry("sha256", bytes.fromhex(digest), name)
        for one in desk[where]["certificates"]:
            whole = isinstance(one, dict)
            body = bytes.fromhex(one["bytes"] if whole else one) + bytes(0 if whole else 16)
            known.entry("x509" if whole else "x509_sha256", body, name)
    level = doubts.level_doubts(
        case.get("components", []), case.get("stamp"), dict(desk["level"]["names"]), known.names
    )
    asks(known.doubts + known.revoked + known.halves + level, case["asks"])


def part(name: str) -> Certificate:
    found = certificate_in(row_bytes(LOOKS["parts"], LOOKS["parts"][name]))
    assert found
    return found


def standing_of(case: Case) -> standing.Standing:
    """What a case lists and revokes; a name of a part is its certificate."""
    listed, revoked = (
        {"certificates": one, "digests": []} if isinstance(one, list) else one
        for one in (case.get("listed", []), case.get("revoked", []))
    )
    return standing.Standing(
        set(listed["digests"]), {one.tbs: one for one in map(part, listed["certificates"])},
        set(revoked["digests"]), {one.tbs for one in map(part, revoked["certificates"])},
        dict(case.get("level", [])),
    )


@each(LOOKS["signatures"])
def test_it_is_said_what_each_signature_is_over(case: Case) -> None:
    found = pkcs7.signatures_of(row_bytes(LOOKS["parts"], case["bytes"]))
    expect([pkcs7.signature_words(one, case["digest"], case["signing"]) for one in found],
           [f"{text}; it holds {HOLDS[held]}" if held else text
            for text, held in zip(case["says"], case["holds"])], "the signatures")
    said = " ".join(pkcs7.algorithm_doubts(found))
    missed = [int(number) for number in re.findall(r"signature (\d+) \(over", said)]
    expect(missed, case["misses"], "those that a revocation misses")
    names = pkcs7.issuer_names(found)
    by = [name for name in ("ca", "between", "leaf", "low", "other") if part(name).of in names]
    expect(sorted(by), sorted(case["issuers"]), "who issued the signers")


@each([case for case in LOOKS["signatures"] if not case["name"].startswith("the digest as")])
def test_an_images_digests_are_worked_out(case: Case) -> None:
    image = row_bytes(LOOKS["parts"], case["bytes"])
    expect(pe.authenticode(image), (case["digest"], case["signing"]), "the digests")


@each(LOOKS["listings"])
def test_it_is_asked_what_is_odd_of_a_certificate_to_be_listed(case: Case) -> None:
    one, now, beside = part(case["certificate"]), standing_of(case), None
    if "image" in case:
        carried = [part(name) for name in case["image"]]
        beside = signer.Beside("an image", [of.tbs for of in carried], carried)
    bodies = [of for of in now.certificates.values() if of]
    bodies += beside.certificates if beside else []
    told = signer.listing_doubts(one, now, bodies)
    asks(told + (signer.image_doubts(one, beside) if beside else []), case["asks"])


@each(LOOKS["compares"])
def test_a_file_is_compared_with_a_request(case: Case) -> None:
    one, here = shaped(Request, case["request"]), Facts(**case["facts"])
    alike, words = compare.likeness(one, here)
    assert LIKE[case["like"]] in words and alike == (case["like"] != "other"), words
    found = [line.split()[0] for line in compare.differences(one, here, {})]
    expect([{"carried": "certificate"}.get(name, name) for name in found], case["differs"], words)


@each(LOOKS["todays"])
def test_it_is_said_what_the_lists_say_of_an_image(case: Case) -> None:
    found = standing.entries_of(standing_of(case), Facts(**case["facts"]))
    expect([f"{where}: {text}".replace("(CN=", "(") for where, text in found],
           [row.replace("(CN=", "(") for row in case["says"]], "what is said")


def test_each_refusal_has_words_and_no_other_number() -> None:
    page = (ROOT / "docs" / "REFUSALS.md").read_text(encoding="utf-8")
    numbers = {int(one) for one in re.findall(r"(?m)^\| (\d+) \|", page)}
    assert numbers == set(REFUSALS) == set(refusals.REFUSALS)
