"""The commands of requests: requests, request, wait, withdraw."""
from __future__ import annotations

import math
import time
from typing import Any, Optional, Sequence

from ..answers import Request, me_of, request_of, shaped
from ..described import WORDS
from ..desk import LONGEST_PAUSE
from ..facts import gap_words
from ..faults import LOST, REFUSED, Lost, Stop, wrong
from ..http import Call
from ..questions import plain_question, rule_words
from ..search import request_matches
from ..standing import barred_by, standing_of
from ..titles import upload_of
from ..words import printable
from .listing import List, Row, show
from .run import OTHER_DESK, Run, act

ALL = List(
    "/requests", "submitter", request_matches,
    "with it in title or submitter, of this number, or whose digest begins so",
    tuple(WORDS["requests"]), ("title",))


def ascii_text(text: str, what: str, least: int, most: int) -> str:
    """A title or a note in its form."""
    for place, sign in enumerate(text, 1):
        if not " " <= sign <= "~":
            wrong(f"the {what} has {sign!r} at place {place}",
                  f"A {what} is ASCII alone: letters, digits, signs and spaces.")
    if not least <= len(text) <= most:
        wrong(f"the {what} has {len(text)} characters, and may have {least} to {most}")
    return text


def state_of(run: Run, number: int) -> list[str]:
    request = request_of(run.desk, number)
    return [f"Request {number} is {request.state}."]


def request_row(value: dict[str, Any]) -> tuple[object, ...]:
    one = shaped(Request, value)
    votes = " ".join(f"{vote['reviewer']}:{vote['vote']}" for vote in one.votes) or "-"
    return one.number, one.state, one.submitter, votes, one.file, one.title


def grouped(rows: Sequence[Row], title: int, submitter: int) -> list[Row]:
    """The rows of an upload below a heading with their numbers, where the first one stands, by the
    places of title and submitter in a row that begins with the number."""
    groups: dict[object, list[Row]] = {}
    for row in rows:
        name, _ = upload_of(str(row[title]))
        groups.setdefault(row[0] if name is None else (row[submitter], name), []).append(row)
    found: list[Row] = []
    for some in groups.values():
        if len(some) == 1:
            found += some
            continue
        numbers = " ".join(str(row[0]) for row in some)
        found.append([f"{upload_of(str(some[0][title]))[0]}: {numbers}"])
        found += [[*row[:title], "  " + upload_of(str(row[title]))[1], *row[title + 1:]]
                  for row in some]
    return found


def requests(run: Run) -> None:
    show(run, ALL, ("NUMBER", "STATE", "SUBMITTER", "VOTES", "FILE", "TITLE"), 5, request_row, 4,
         lambda rows: grouped(rows, 5, 2))


NEXT = {
    "open": "two votes of yes approve it, one no rejects it",
    "approved": "the signer returns the signed file",
    "signed": "done",
    "rejected": "for good: a mended image is a new request",
    "withdrawn": "for good"}


def request(run: Run) -> None:
    value = run.desk.get(f"/requests/{run.words.number}").object()
    if run.words.json:
        run.print_json(value)
        return
    one, me = shaped(Request, value), me_of(run.desk)
    rows: list[tuple[str, object]] = [
        ("number", one.number), ("state", f"{one.state} ({NEXT.get(one.state, '')})"),
        ("submitter", one.submitter + (" (you)" if me.name == one.submitter else "")),
        ("title", one.title), ("length", one.length), ("file", one.file), ("digest", one.digest),
        ("signing", one.signing)]
    rows += [("gap", gap_words(one.gap))] if one.gap else []
    rows += [("carried", digest) for digest in one.carried]
    rows += [("component", f"{name} {generation}") for name, generation in one.components]
    rows += [("vote", f"{vote['reviewer']} {vote['vote']}  {vote['note']}".rstrip())
             for vote in one.votes]
    if one.returned:
        rows += [("returned", one.returned),
                 ("verdict", WORDS["returned"].format(check="`deskctl verdict FILE`"))]
    barred = barred_by(standing_of(run.desk), one)
    rows += [("today", f"barred: {rule_words(barred)}")] if barred else []
    run.terminal.rows(rows)


def looked_at(run: Run, taken: bool) -> Optional[str]:
    """The tag of the request: the SHA-256 of its submitted file."""
    return None if taken else request_of(run.desk, run.words.number).file


def withdraw_asks(run: Run, taken: bool) -> Optional[str]:
    tag = looked_at(run, taken)
    if not taken:
        run.terminal.ask(plain_question("withdraw", run.words.number))
    return tag


def another_file(number: int) -> list[str]:
    return [f"Request {number} is another file now. {OTHER_DESK}"]


def withdraw(run: Run) -> None:
    number = run.words.number
    call = Call("POST", f"/requests/{number}/withdraw", b"", (), "withdrawn", f"withdraw {number}")
    act(run, [call], lambda _: run.terminal.say(f"request {number} withdrawn"),
        lambda taken: withdraw_asks(run, taken),
        {24: lambda _: state_of(run, number), 49: lambda _: another_file(number)})


def hopeless(one: Request, wanted: str) -> None:
    """Ends the wait for a state that the request can't get any more."""
    if one.state in ("rejected", "withdrawn", "signed") or (one.state == "approved"
                                                            and wanted in ("open", "rejected")):
        notes = [
            f"{vote['reviewer']}: {printable(vote['note'])}" for vote in one.votes
            if vote["vote"] == "no" and vote["note"]]
        raise Stop(REFUSED, f"request {one.number} is {one.state}, and won't be {wanted}", *notes)


def wait(run: Run) -> None:
    """Asks for a request until it has the state; a signed one was approved before. A desk that
    answered once may do so again."""
    number, wanted, pause = run.words.number, run.words.state, 1.0
    until = time.monotonic() + (run.words.timeout or math.inf)
    run.desk.until = until
    one: Optional[Request] = None
    while True:
        try:
            value = run.desk.get(f"/requests/{number}").object()
            one = shaped(Request, value)
        except Lost as lost:
            if one is None:
                raise
            run.terminal.note(f"deskctl: {printable(lost)}; still waiting")
        else:
            if one.state == wanted or (wanted, one.state) == ("approved", "signed"):
                (run.print_json(value)
                 if run.words.json else run.terminal.say(f"request {number} {one.state}"))
                return
            hopeless(one, wanted)
        left = until - time.monotonic()
        if left <= 0:
            raise Stop(LOST, f"request {number} is still {one.state} after {run.words.timeout:g} s")
        time.sleep(min(pause, left))
        pause = min(pause * 1.5, LONGEST_PAUSE)
