"""What deskctl asks before a vote, a withdrawal, a return and a drop, by
page/wire/cases/questions.json."""
from __future__ import annotations

import json
import re
from dataclasses import replace
from typing import Any

import pytest

from checks.client.test_cases import part, standing_of
from checks.support.cases import row_bytes
from checks.support.wire import wire
from kovelamiru.answers import Request
from kovelamiru.pkcs7 import signatures_of
from kovelamiru.questions import (
    QUESTIONS, carried_question, issued_question, plain_question, several_question, twice_question,
    unknown_words, yes_question,
)
from kovelamiru.standing import Standing
from kovelamiru.unlisting import losing

CASES: dict[str, Any] = wire("cases/questions")
NOW = Standing(
    level=CASES["level"],
    revoked_digests=set(CASES["revoked"]["digests"]),
    revoked_certificates=set(CASES["revoked"]["certificates"]),
)


def request_of(case: dict[str, Any]) -> Request:
    votes = [{"vote": vote, "reviewer": "raul", "note": ""} for vote in case.get("votes", [])]
    return Request(
        7, "open", "ann", "a loader", 512, "", case.get("digest", ""), case.get("signing", ""), 0,
        case.get("carried", []), case.get("components", []), None, votes,
    )


@pytest.mark.parametrize("case", CASES["submits"], ids=[one["name"] for one in CASES["submits"]])
def test_a_file_that_was_submitted_before_is_asked_about(case: dict[str, Any]) -> None:
    own = [replace(request_of({}), **one) for one in CASES["own"]]
    assert twice_question(own, case["file"], case.get("digests", [])) == case.get("asks")


@pytest.mark.parametrize("case", CASES["yes"], ids=[one["name"] for one in CASES["yes"]])
def test_a_yes_asks_about_what_is_odd_and_what_stays(case: dict[str, Any]) -> None:
    found = yes_question(request_of(case), NOW, case.get("another", False))
    assert list(found) == case["asks"]
    for name, line in found.items():
        due = QUESTIONS["yes"][name].replace("{why}", case.get("why", ""))
        assert line == due.replace("{number}", "7")


@pytest.mark.parametrize("case", CASES["several"], ids=[one["name"] for one in CASES["several"]])
def test_one_vote_on_several_requests_asks_about_each(case: dict[str, Any]) -> None:
    requests = [replace(request_of(has), number=number) for number, has in case["requests"]]
    each = [(one.number, list(yes_question(one, NOW).values()) if case["vote"] == "yes"
             else plain_question("no", one.number)) for one in requests]
    assert several_question(case["vote"], each) == (case["lines"], case["title"])


LOOKS: dict[str, Any] = wire("cases/looks")


SIGNED = {one["name"]: row_bytes(LOOKS["parts"], one["bytes"]) for one in LOOKS["signatures"]}


@pytest.mark.parametrize("case", CASES["returns"], ids=[one["name"] for one in CASES["returns"]])
def test_a_return_asks_where_no_listed_signer_is_named(case: dict[str, Any]) -> None:
    now = standing_of(case)
    said = carried_question(signatures_of(SIGNED[case["signature"]]), now)
    assert (said is not None) == (case["asks"] == ["carried"]), said


@pytest.mark.parametrize("case", CASES["issued"], ids=[one["name"] for one in CASES["issued"]])
def test_an_issuer_that_is_revoked_names_what_it_issued(case: dict[str, Any]) -> None:
    now, revokes = standing_of(case), [part(name) for name in case["revokes"]]
    names = {one.tbs for one in revokes}
    said = [issued_question(one, now, names) for one in revokes]
    assert [line for line in said if line] == ([case["asks"]] if "asks" in case else [])


@pytest.mark.parametrize("case", CASES["unknown"], ids=[one["name"] for one in CASES["unknown"]])
def test_of_an_unknown_certificate_the_listed_ones_issuers_are_said(case: dict[str, Any]) -> None:
    assert unknown_words(standing_of(case)) == case["says"]


# (`<aa>` is a SHA-256 of this byte alone)
UNLIST: dict[str, Any] = json.loads(
    re.sub("<(..)>", lambda byte: byte[1] * 32, json.dumps(CASES["unlist"])))


@pytest.mark.parametrize("case", UNLIST["cases"], ids=[one["name"] for one in UNLIST["cases"]])
def test_the_signed_files_that_only_an_entry_allows_are_found(case: dict[str, Any]) -> None:
    listed, revoked = UNLIST["listed"], UNLIST["revoked"]
    now = Standing(
        set(listed["digests"]), dict.fromkeys(listed["certificates"]), set(revoked["digests"]),
        set(revoked["certificates"]), UNLIST["level"],
    )
    assert losing(now, UNLIST["minutes"], case["entry"]) == case["loses"]
