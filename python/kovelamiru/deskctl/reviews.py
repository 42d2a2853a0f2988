"""The command review, of one request or of several."""
from __future__ import annotations

from typing import Any, Optional, Sequence

from ..answers import Request, me_of, request_of, shaped, titled
from ..compare import beside_lines
from ..described import LIMITS
from ..desk import objects
from ..faults import Causes, Refused, Stop
from ..http import Call
from ..questions import plain_question, several_question, yes_question
from ..standing import standing_of
from ..titles import name_of
from ..waiting import yes_words
from ..words import desk_json, printable
from .requests import NEXT, another_file, ascii_text, state_of
from .run import One, Run, act_in_turn

# So many parts of the list are looked through for what was signed before, of so many requests each.
PARTS, PART = 5, 1000
# By these the request takes no vote of the caller's any more; at a Mismatch it is to be looked at.
OVER, MISMATCH = (23, 24, 25, 26), 49
OWN_REQUEST = "You submitted it yourself: the desk takes votes of other reviewers alone."


def looked_at(run: Run, numbers: Sequence[int]) -> list[Request]:
    """The requests; where one isn't there, nothing is sent."""
    found = []
    for number in numbers:
        try:
            found.append(request_of(run.desk, number))
        except Refused as refused:
            refused.more.insert(0, f"It was asked for request {number}. Nothing was sent.")
            raise
    return found


def doubts_of(run: Run, requests: Sequence[Request]) -> tuple[bool, list[list[str]]]:
    """Of each request what is asked before the vote: one that the desk will refuse, as its
    caller's own, a yes on a barred image, and what the vote settles for good; and whether a script
    has to say that it is meant."""
    me, forced, found = me_of(run.desk), False, []
    now = standing_of(run.desk) if run.words.vote == "yes" else None
    for one in requests:
        if one.submitter == me.name:
            forced = True
            found.append([OWN_REQUEST])
        elif now is None:
            found.append(plain_question("no", one.number))
        else:
            asks = yes_question(one, now)
            forced = forced or "barred" in asks
            found.append(list(asks.values()))
    return forced, found


def last_signed(run: Run, some: Sequence[Request]) -> dict[str, Request]:
    """Of each name among these the request that was signed last, as far as the parts of the list
    have it that come before."""
    wanted, found = {name_of(one.title) for one in some}, dict[str, Request]()
    end = max(one.number for one in some)
    for first in range(end - PART + 1, end - PARTS * PART, -PART):
        for value in reversed(list(objects(run.desk.get(f"/requests/from/{max(first, 1)}")))):
            one = shaped(Request, value)
            name = name_of(one.title)
            if one.state == "signed" and name in wanted:
                found.setdefault(name, one)
        if first <= 1 or wanted <= set(found):
            break
    return found


def show_all(run: Run, some: Sequence[Request]) -> None:
    """Each request with its image's facts, beside those of the last signed one of its name."""
    before = last_signed(run, some)
    for one in some:
        run.terminal.note(
            f"{printable(titled(one))}, of {printable(one.submitter)}, {yes_words(one)}")
        for line in [f"  file        {one.file}",
                     *beside_lines(one, before.get(name_of(one.title)))]:
            run.terminal.note(line)


def review_asks(run: Run, numbers: Sequence[int]) -> list[str]:
    """Shows several requests, and puts one question; the tag of each."""
    found = looked_at(run, numbers)
    forced, each = doubts_of(run, found)
    doubts = each[0]
    question = "Vote all the same? Type yes:" if forced else "Is that meant? Type yes:"
    if len(found) > 1:
        show_all(run, found)
        doubts, asked = several_question(run.words.vote, list(zip(numbers, each)))
        question = f"{asked} Type yes:"
    if forced:
        run.terminal.confirm(doubts, question)
    elif doubts:
        run.terminal.ask(doubts, question)
    return [one.file for one in found]


def voted(run: Run, number: int, alone: bool, reply: dict[str, Any]) -> None:
    state = printable(reply.get("state"))
    run.terminal.say(f"request {number} reviewed: {state}")
    if alone:
        run.terminal.note(f"{state}: {NEXT.get(state, '')}.")


def requests_words(numbers: Sequence[int]) -> str:
    return f"request{'s' * (len(numbers) > 1)} {', '.join(map(str, numbers))}"


def ended_at(run: Run, numbers: Sequence[int], at: int, stop: Stop) -> None:
    """Says which of several requests have the vote, and which ones are left to go on with."""
    before, behind = numbers[:at], numbers[at + 1:]
    parts = [f"It stopped at request {numbers[at]}."]
    if before:
        parts.append(f"Your vote of {run.words.vote} is in on {requests_words(before)}.")
    if behind:
        none = "recorded no vote, and " if stop.settles() and not before else ""
        parts.append(f"This run {none}sent nothing for {requests_words(behind)}.")
    stop.more.insert(0, " ".join(parts))
    number = stop.number if isinstance(stop, Refused) else None
    left = behind if number in OVER else numbers[at:] if number == MISMATCH else ()
    if left:
        stop.more.append("To go on, run the same command with the numbers that are left:"
                         f" {' '.join(map(str, left))}")


def review(run: Run) -> None:
    numbers = list(dict.fromkeys(run.words.numbers))
    note = ascii_text(run.words.note, "note", 0, LIMITS["note"])
    body = desk_json({"note": note, "vote": run.words.vote}).encode()
    what = f"review {' '.join(map(str, numbers))} {run.words.vote} {note}".rstrip()

    def one(number: int) -> One:
        call = Call("POST", f"/requests/{number}/review", body, (), "reviewed", what)
        causes: Causes = {24: lambda _: state_of(run, number), 49: lambda _: another_file(number)}
        return One(call, f"request {number}",
                   lambda reply: voted(run, number, len(numbers) == 1, reply), causes)

    def asks(taken: bool) -> Optional[list[str]]:
        return None if taken else review_asks(run, numbers)

    def ended(at: int, stop: Stop) -> None:
        if len(numbers) > 1:
            ended_at(run, numbers, at, stop)

    act_in_turn(run, list(map(one, numbers)), asks, ended)
