"""One run of deskctl, and its commands that take effect once."""
from __future__ import annotations

from dataclasses import dataclass, field
from typing import Any, Callable, NoReturn, Optional, Sequence, Union

from ..desk import Desk
from ..faults import DONE, REFUSED, Causes, Lost, Refused, Stop, explained
from ..http import Answer, Call, not_a_desk
from ..journal import Entry, Journal
from ..terminal import Terminal
from ..words import desk_json
from .settings import Names, Settings, desk_of


@dataclass
class Run:
    """One run of deskctl: its words, and what it works with."""

    words: Names
    settings: Settings
    terminal: Terminal
    journal: Journal
    opened: list[Desk] = field(default_factory=list)

    @property
    def desk(self) -> Desk:
        if not self.opened:
            self.opened.append(desk_of(self.settings, self.terminal))
        return self.opened[0]

    def print_json(self, value: Any) -> None:
        self.terminal.say(desk_json(value))


Replies = list[dict[str, Any]]
# Why a number names something else than it did.
OTHER_DESK = "This desk isn't the one that you looked at, or it lost its last calls."
# Puts the questions before the first try, and returns the tag of what was looked at, or one for
# each call, if the command is about something. It is told whether keys are taken up from a run
# without an answer.
Asks = Callable[[bool], Union[None, str, Sequence[str]]]
# Refusals of the caller, which each of the calls would get.
CALLERS = (20, 21)


# What comes of the replies before the journal lets go of their keys, and how the run ends by it.
Then = Callable[[Entry, Replies], int]


def act(run: Run, calls: Sequence[Call], show: Callable[[Replies], None],
        asks: Optional[Asks] = None, causes: Optional[Causes] = None,
        then: Optional[Then] = None) -> NoReturn:
    """Makes each of the calls once, whatever becomes of this run, and each try about what was
    looked at before the first. The first refusal ends it."""
    def exchange(entry: Entry, taken: bool) -> int:
        replies = exchange_all(run, calls, entry, taken, causes or {})
        told(run, replies, show)
        return then(entry, replies) if then else DONE

    made(run, calls, asks, exchange)


def told(run: Run, replies: Replies, show: Callable[[Replies], None]) -> None:
    if run.words.json:
        for reply in replies:
            run.print_json(reply)
    else:
        show(replies)


@dataclass(frozen=True)
class One:
    """A call that stands by itself: what it is about, in words, what shows its reply, and the
    causes of its refusals."""

    call: Call
    name: str
    show: Callable[[dict[str, Any]], None]
    causes: Causes


def act_each(run: Run, ones: Sequence[One], asks: Asks) -> NoReturn:
    """The same of calls each of which stands by itself: a refusal of one of several is told, and
    the others go on."""
    made(run, [one.call for one in ones], asks,
         lambda entry, taken: exchange_each(run, ones, entry, taken))


# Says where calls in turn end at the one of this place.
Ended = Callable[[int, Stop], None]


def act_in_turn(run: Run, ones: Sequence[One], asks: Asks, ended: Ended) -> NoReturn:
    """The same of calls none of which goes out behind one that is refused."""
    made(run, [one.call for one in ones], asks,
         lambda entry, taken: exchange_in_turn(run, ones, entry, taken, ended))


def identity_of(run: Run, calls: Sequence[Call]) -> list[Any]:
    """What the journal knows a command by."""
    return [str(run.desk.where), run.desk.caller, [call.identity() for call in calls]]


def made(run: Run, calls: Sequence[Call], asks: Optional[Asks],
         exchange: Callable[[Entry, bool], int]) -> NoReturn:
    """The answers are shown before the journal lets go of the keys, and with them the run ends."""
    entry = run.journal.entry(identity_of(run, calls), run.terminal.note)
    try:
        status = exchange(entry, keyed(run, calls, asks, entry))
        run.terminal.flush()
        entry.over(status)
    finally:
        entry.close()


def held(run: Run, call: Call, key: str, behind: dict[str, Any]) -> Entry:
    """The entry of a call that comes of another's reply: this key is on the disk, if none was."""
    entry = run.journal.entry(identity_of(run, [call]), run.terminal.note)
    if not entry.keys or run.words.new_key:
        entry.behind = behind
        entry.hold(call.what, str(run.desk.where), [key], [])
    return entry


def follow(run: Run, call: Call, entry: Entry, asks: Asks, causes: Causes) -> dict[str, Any]:
    """The reply to such a call."""
    try:
        [reply] = exchange_all(run, [call], entry, keyed(run, [call], asks, entry), causes)
        entry.done()
        return reply
    finally:
        entry.close()


def keyed(run: Run, calls: Sequence[Call], asks: Optional[Asks], entry: Entry) -> bool:
    """Whether the keys of the calls are taken up from a run without an answer. If not, they are on
    the disk, behind the questions: new ones, or the one that was held."""
    is_held = len(entry.keys) == len(calls) and not (run.words.new_key and entry.tags)
    taken = is_held and bool(entry.tags)
    about = begin(run, entry, taken, asks)
    if not taken:
        tags = [about] * len(calls) if isinstance(about, str) else list(about)
        key = entry.keys[0] if is_held else ""
        entry.write(calls[0].what, str(run.desk.where), tags, key)
    return taken


def begin(run: Run, entry: Entry, taken: bool, asks: Optional[Asks]) -> Union[str, Sequence[str]]:
    """Says that keys are taken up, and puts the questions."""
    if taken:
        run.terminal.warn(
            f"deskctl: taking up the keys of {entry.since}, which have no answer yet (--new-key"
            " forgets them)")
    try:
        return (asks(taken) if asks else None) or ""
    except BaseException:
        if not entry.keys:
            entry.done()
        raise


def replied(answer: Answer, call: Call) -> dict[str, Any]:
    """The desk's reply to a command."""
    found = answer.object()
    if found.get("reply") != call.reply:
        raise not_a_desk(answer)
    return found


def exchange_all(run: Run, calls: Sequence[Call], entry: Entry, taken: bool,
                 causes: Causes) -> Replies:
    """The replies to calls under the keys of the entry."""
    replies: Replies = []
    for call, key, tag in zip(calls, entry.keys, entry.tags):
        try:
            replies.append(replied(run.desk.ask(call.given(key, tag)), call))
        except Stop as stop:
            if isinstance(stop, Refused):
                explained(stop, causes)
            stopped(entry, stop, taken, f"{len(replies)} of {len(calls)} parts are proposed"
                    if replies else "")
            raise
    return replies


def exchange_each(run: Run, ones: Sequence[One], entry: Entry, taken: bool) -> int:
    """Shows each reply as it comes, and each refusal; the status of the worst."""
    status = DONE
    for at, (one, key, tag) in enumerate(zip(ones, entry.keys, entry.tags)):
        try:
            reply = replied(run.desk.ask(one.call.given(key, tag)), one.call)
        except Stop as stop:
            if isinstance(stop, Refused):
                explained(stop, one.causes)
                if len(ones) > 1 and stop.settles() and stop.number not in CALLERS:
                    run.terminal.stop(f"{one.name}: {stop}", stop.more)
                    status = REFUSED
                    continue
            if len(ones) > 1:
                rest = len(ones) - at - 1
                stop.more.insert(0, f"It stopped at {one.name}; {rest} more weren't sent.")
            stopped(entry, stop, taken, f"{at} of {len(ones)} have their answer" if at else "")
            raise
        shown(run, one, reply)
    return status


def exchange_in_turn(run: Run, ones: Sequence[One], entry: Entry, taken: bool,
                     ended: Ended) -> int:
    """Shows each reply as it comes. With the first refusal by the desk's rules the keys go: those
    before it have their replies, and none behind it went out."""
    for at, (one, key, tag) in enumerate(zip(ones, entry.keys, entry.tags)):
        try:
            reply = replied(run.desk.ask(one.call.given(key, tag)), one.call)
        except Stop as stop:
            if isinstance(stop, Refused):
                explained(stop, one.causes)
            ended(at, stop)
            run.terminal.flush()
            goes_on = at and not stop.settles()
            stopped(entry, stop, taken, f"{at} of {len(ones)} have their answer" if goes_on else "")
            raise
        shown(run, one, reply)
    return DONE


def shown(run: Run, one: One, reply: dict[str, Any]) -> None:
    if run.words.json:
        run.print_json(reply)
    else:
        one.show(reply)


def stopped(entry: Entry, stop: Stop, taken: bool, answered: str) -> None:
    """Says what is known of the calls of an entry that ends without all answers. It goes where none
    of them can have acted."""
    lost = isinstance(stop, Lost) and (stop.sent or stop.tried or taken or answered)
    if answered:
        stop.more.append(f"{answered}; the same command goes on with the others.")
    if lost or (taken or stop.tried) and not answered and not stop.settles():
        whose = "it" if lost else "an earlier try"
        stop.more.append(
            f"Whether the desk took {whose} isn't known. Run the same command again: it takes"
            " effect once.")
    elif not answered:
        entry.done()
