"""page/wire/ beside the Rattle sources and the documents: two places say the same of the desk.

It reads sources, and needs no program.
"""
from __future__ import annotations

import re
import subprocess
import sys
import uuid
from typing import Any, Dict, Iterator, List, Set, Tuple


from checks.support.tools import ROOT
from checks.support.wire import FOLDER, wire
from checks.wire import rattle

# No request gets them: the routes have no command that could be refused by the first, and the
# clause `named` of http_calls' serving excludes the second.
NEVER_SENT = {"NameTaken", "NotADesk"}


REFUSALS: List[Dict[str, Any]] = wire("refusals")
# A table that docs/tables.py writes.
MARKED = re.compile(r"(?m)^<!-- \w+, by docs/tables\.py -->\n(?:\|.*\n)+")


def test_the_refusals_are_those_of_the_desk_word_for_word() -> None:
    said = [(one["number"], one["name"], one["kind"], one["means"]) for one in REFUSALS]
    due = rattle.refusals()
    assert [row for row in due if row not in said] == [], "refusal.rt has it, refusals.json hasn't"
    assert [row for row in said if row not in due] == [], "refusals.json has it, refusal.rt hasn't"
    assert said == due, "the order differs"


def test_each_refusal_has_the_status_of_its_responses() -> None:
    due = rattle.status_of_refused()
    for one in REFUSALS:
        status = None if one["name"] in NEVER_SENT else due.get(one["name"])
        assert one["status"] == status, f"refused.rt has {status} for {one['name']}"


def test_a_refused_request_has_the_refusals_sentence() -> None:
    means = {one["name"]: one["means"] for one in REFUSALS}
    told = rattle.variants("http_responses/src/refused.rt", "Refused")
    other = {name: text for name, text in told.items() if text != means.get(name)}
    assert told and other == {}, "refused.rt has it, refusals.json hasn't"


def test_the_phrases_are_those_of_the_statuses() -> None:
    assert wire("words")["statuses"] == rattle.statuses()


def test_the_words_are_those_of_texts() -> None:
    words, due = wire("words"), rattle.words()
    assert words["roles"] == due["Role"]
    assert sorted(words["votes"]) == sorted(due["Vote"])
    assert sorted(words["requests"]) == sorted(due["State"])
    assert sorted(words["proposals"]) == sorted(due["ProposalState"])


def test_the_limits_are_those_of_the_desk() -> None:
    """(What shim compares, and what is unusual, is no rule of the desk.)"""
    said = wire("limits")
    due = {**said, **rattle.limits()}
    assert said == due


def test_the_forms_of_sentences_have_these_words() -> None:
    forms, due = wire("sentences")["forms"], rattle.words()
    for form, enum in (("ROLE", "Role"), ("STATE", "State"), ("VOTE", "Vote")):
        assert sorted(forms[form].split("|")) == sorted(due[enum])


def test_the_kinds_of_lists_are_those_that_the_desk_keeps() -> None:
    said = {
        one["name"]: (uuid.UUID(one["guid"]).bytes_le.hex(), one["entry"])
        for one in wire("lists")["types"]
        if "entry" in one
    }
    assert said == rattle.lists()


def test_no_type_of_lists_stands_twice() -> None:
    types = wire("lists")["types"]
    for key in ("name", "guid", "uefi"):
        assert len({one[key] for one in types}) == len(types)


def routes_of_formats() -> Set[Tuple[str, str]]:
    """Each path of the table in docs/FORMATS.md with its methods."""
    page = (ROOT / "docs" / "FORMATS.md").read_text(encoding="utf-8")
    table = page[page.index("| Path | GET | POST") :].split("\n\n", 1)[0]
    said: Set[Tuple[str, str]] = set()
    for row in table.split("\n")[2:]:
        paths, *ways = [cell.strip() for cell in row.strip("|").split("|")]
        for path in re.findall("`([^`]*)`", paths):
            said.update((path, way) for way, told in zip(("get", "post"), ways) if told)
    return said


def test_each_place_has_the_routes_of_the_others() -> None:
    paths = wire("openapi")["paths"]
    places = {
        "specs/Paths.antt of http_requests": rattle.routes(),
        "src/route.rt of http_requests": rattle.route_comments(),
        "page/wire/openapi.json": {(path, way) for path, ways in paths.items() for way in ways},
        "the table of docs/FORMATS.md": routes_of_formats(),
    }
    every = sorted(set().union(*places.values()))
    lacking = [f"{name} has no {way} {path}" for name, has in places.items()
               for path, way in every if (path, way) not in has]
    assert every and not lacking, "\n".join(lacking)


def test_the_documents_have_the_tables_of_wire() -> None:
    tables = [sys.executable, "-B", f"{ROOT}/docs/tables.py", "--check"]
    ended = subprocess.run(tables, stdout=subprocess.PIPE, text=True, check=False)
    assert (ended.returncode, ended.stdout) == (0, ""), "docs/tables.py writes them"


def written_by_hand() -> Iterator[Tuple[str, str]]:
    """The files that take what they say from page/wire/, with their texts as a typewriter has
    them."""
    rooms = [ROOT / name for name in ("page", "python", "client", "packaging", "docs")]
    for path in (ROOT / "README.md", *(path for room in rooms for path in room.rglob("*"))):
        if path.is_file() and path.suffix not in (".png", ".pyc") and FOLDER not in path.parents:
            text = path.read_text(encoding="utf-8").replace("\u2019", "'")
            yield str(path.relative_to(ROOT)), MARKED.sub("", text)


def test_no_other_file_has_a_refusals_sentence_or_a_types_guid() -> None:
    """(A sentence of up to four words can be another's.)"""
    sentences = [one["means"].rstrip(".") for one in REFUSALS if one["means"].count(" ") > 3]
    guids = [one["guid"] for one in wire("lists")["types"]]
    stored = [uuid.UUID(guid).bytes_le.hex() for guid in guids]
    files = list(written_by_hand())
    assert len(files) > 100
    for name, text in files:
        told = " ".join(text.split())
        found = [one for one in (*sentences, *guids, *stored) if one in told]
        assert found == [], f"{name} has what page/wire/ has"
