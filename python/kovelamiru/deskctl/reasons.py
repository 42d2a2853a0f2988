"""The command explain, and the reason that goes out behind a proposal."""
from __future__ import annotations

import hashlib
import os
import shlex
from typing import Any, Callable, Sequence

from ..answers import proposal_in, said_number
from ..described import LIMITS
from ..faults import DONE, REFUSED, Causes, Stop, wrong
from ..http import Call
from ..journal import Entry
from ..words import desk_json
from .requests import ascii_text
from .run import OTHER_DESK, Asks, Replies, Run, Then, act, follow, held, identity_of, told


def reason_of(text: str) -> str:
    """A reason in its form."""
    reason = ascii_text(text, "reason", 1, LIMITS["reason"])
    if reason != reason.strip():
        wrong("a reason can't begin or end with a space")
    return reason


def asked_reason(run: Run) -> str:
    """The reason that is typed where a person can be asked; nothing where none is."""
    while run.terminal.can_ask:
        typed = run.terminal.typed("Why? A line for the minutes, or nothing:").strip()
        try:
            return reason_of(typed) if typed else ""
        except Stop as stop:
            run.terminal.warn(str(stop))
    return ""


def shown_proposal(run: Run, number: int) -> dict[str, Any]:
    """A proposal with all that it names."""
    return run.desk.get(f"/proposals/{number}").object()


def tag_of(run: Run, number: int) -> str:
    """The proposal's tag."""
    return proposal_in(shown_proposal(run, number)).tag()


def another_proposal(number: int) -> list[str]:
    return [f"Proposal {number} names something else now. {OTHER_DESK}"]


def explanation(number: int, text: str) -> Call:
    return Call("POST", f"/proposals/{number}/explain", desk_json({"text": text}).encode(), (),
                "explained", f"explain {number} {text}")


def causes_of(number: int) -> Causes:
    return {49: lambda _: another_proposal(number)}


def explain_asks(run: Run, number: int) -> Asks:
    return lambda taken: None if taken else tag_of(run, number)


def explain(run: Run) -> None:
    number, text = run.words.number, reason_of(run.words.text)
    act(run, [explanation(number, text)],
        lambda _: run.terminal.say(f"proposal {number} explained"), explain_asks(run, number),
        causes_of(number))


def explaining(run: Run, reason: Callable[[], str]) -> Then:
    """What sends the reason, if there is one, of each proposal that was made. The proposals' own
    entry goes as soon as each reason has one."""
    def then(entry: Entry, replies: Replies) -> int:
        text = reason()
        behind = {"of": os.path.basename(entry.path), "replies": replies}
        entries = [
            held(run, explanation(number_in(reply), text), own_key(key, text), behind)
            for key, reply in zip(entry.keys, replies if text else [])]
        run.terminal.flush()
        entry.done()
        return max((explained_once(run, number_in(reply), text, own)
                    for reply, own in zip(replies, entries)), default=DONE)

    return then


def number_in(reply: dict[str, Any]) -> int:
    return said_number(reply, "proposal")


def own_key(key: str, text: str) -> str:
    """The key of a proposal and of the text: a repeat of the whole explains once, too."""
    return f"{key}-{hashlib.sha256(text.encode()).hexdigest()[:8]}"


def explained_once(run: Run, number: int, text: str, entry: Entry) -> int:
    """Sends a reason. A refusal is told: the proposal stands all the same."""
    try:
        found = follow(run, explanation(number, text), entry, explain_asks(run, number),
                       causes_of(number))
    except Stop as stop:
        stop.more.append(f"Proposal {number} is made. Its reason alone is sent by:"
                         f" deskctl explain {number} {shlex.quote(text)}")
        if stop.status != REFUSED:
            raise
        run.terminal.stop(str(stop), stop.more)
        return REFUSED
    show_explained(run, found, number)
    return DONE


def sends_the_rest(run: Run, calls: Sequence[Call], show: Callable[[Replies], None]) -> None:
    """Where the same command made its proposals before, and a reason has no answer, that alone is
    sent, and the run ends."""
    left = [] if run.words.new_key else run.journal.behind(identity_of(run, calls))
    if not left:
        return
    told(run, left[0]["behind"]["replies"], show)
    status = DONE
    for one in left:
        number, text = one["what"].split(" ", 2)[1:]
        entry = held(run, explanation(int(number), text), one["keys"][0], one["behind"])
        status = max(status, explained_once(run, int(number), text, entry))
    run.terminal.flush()
    os._exit(status)


def show_explained(run: Run, reply: dict[str, Any], number: int) -> None:
    if run.words.json:
        run.print_json(reply)
    else:
        run.terminal.say(f"proposal {number} explained")
