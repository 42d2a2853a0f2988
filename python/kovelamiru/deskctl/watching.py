"""The command watch: what waits for its caller, each told once."""
from __future__ import annotations

import fcntl
import json
import os
import shlex
import shutil
import subprocess
import time
from dataclasses import asdict, dataclass
from typing import Any, Iterator, Optional, Sequence

from ..answers import Counts, Me, Request, me_of, request_of, shaped
from ..faults import LOST, Lost, Refused, Stop, broken, reason, wrong
from ..files import folder_of, fresh
from ..questions import rule_words
from ..standing import Standing, barred_by, revoked_of
from ..waiting import UNDER_WAY, changes_of, waiting_of
from ..words import desk_json, kinds, printable
from .run import Run
from .seen import lost

# Seconds between two looks; and at least so many times what an answer took: a long list is asked
# for less often.
MINUTE, REST = 60.0, 100


@dataclass(frozen=True)
class Event:
    """What waits, or changed: its kind, the number of its request or proposal, whose it is."""

    kind: str
    number: int
    by: str
    words: str

    def name(self) -> str:
        return f"{self.kind} {self.number}"


def request_event(kind: str, one: Request, words: str) -> Event:
    return Event(kind, one.number, one.submitter, f"request {one.number} {words}: {one.title}")


def votes_of(one: Request) -> str:
    return ", ".join(f"{vote['reviewer']} {vote['vote']}" for vote in one.votes)


def asked(me: Me, one: Request) -> Iterator[Event]:
    """What the caller is asked for by a request that waits, where it isn't their own."""
    if me.role == "signer":
        yield request_event("sign", one, f"of {one.submitter} waits for its signed file")
    elif one.submitter != me.name:
        yield request_event("review", one, f"of {one.submitter} waits for your review")


def barred(me: Me, concerned: Sequence[Request], now: Standing) -> Iterator[Event]:
    """The requests whose images are barred today."""
    for one in concerned:
        rule = barred_by(now, one)
        if rule:
            of = "yours" if one.submitter == me.name else f"of {one.submitter}"
            yield request_event("barred", one, f"({of}) is barred, {rule_words(rule)}")


def proposed(one: Counts) -> Event:
    names = kinds({name: count for name, count in one.named().items() if count})
    words = f"proposal {one.number} of {one.officer} waits for your Confirm: {names}"
    return Event("confirm", one.number, one.officer, words)


class Memory:
    """What was told, how one's own requests were, the number behind the last request that was seen,
    and the desk's number of changes: a file for each caller at each desk."""
    def __init__(self, run: Run):
        folder = os.path.join(folder_of("XDG_STATE_HOME", ".local/state"), "deskctl-watch")
        self.path = os.path.join(folder, f"{run.desk.caller}.json")
        try:
            os.makedirs(folder, mode=0o700, exist_ok=True)
            lock = os.open(f"{self.path}.lock", os.O_RDWR | os.O_CREAT | os.O_CLOEXEC, 0o600)
            fcntl.flock(lock, fcntl.LOCK_EX | fcntl.LOCK_NB)
        except BlockingIOError:
            wrong("another watch of yours is under way", "It tells what there is.")
        except OSError as error:
            wrong(f"nothing can be remembered in {folder}: {reason(error)}")
        self.told: set[str] = set()
        self.own: dict[str, str] = {}
        self.next, self.changes = 0, -1
        self.new = not self.read()

    def read(self) -> bool:
        try:
            with open(self.path, encoding="utf-8") as file:
                found = json.load(file)
            told = {str(name) for name in found["told"]}
            own = {str(number): str(state) for number, state in found["own"].items()}
            self.next, self.changes = int(found["next"]), int(found["changes"])
            self.told, self.own = told, own
            return True
        except (OSError, ValueError, KeyError, TypeError, AttributeError):
            return False

    def write(self) -> None:
        found = {"changes": self.changes, "next": self.next, "own": self.own,
                 "told": sorted(self.told)}
        fresh(self.path, json.dumps(found).encode())
        self.new = False

    def changed(self, me: Me, one: Request) -> Iterator[Event]:
        """A change of one's own request. What stood at the first look is none."""
        number, now = str(one.number), how_of(one)
        before = self.own.get(number, now if self.new else "open; ")
        if self.new or before == now:
            self.own[number] = now
        else:
            votes = f" ({votes_of(one)})" if one.votes else ""
            words = f"your request {one.number} is {one.state}{votes}: {one.title}"
            yield Event("changed", one.number, me.name, words)

    def keep(self, event: Event, own: Sequence[Request]) -> None:
        if event.kind == "changed":
            self.own |= {str(one.number): how_of(one) for one in own if one.number == event.number}
        else:
            self.told.add(event.name())

    def close(self, last: int, changes: Optional[int]) -> None:
        """All was told of a look that got so far: what ended is forgotten."""
        self.own = {number: how for number, how in self.own.items() if is_under_way(how)}
        self.next, self.changes = last + 1, -1 if changes is None else changes
        self.write()


def how_of(one: Request) -> str:
    return f"{one.state}; {votes_of(one)}"


def is_under_way(how: str) -> bool:
    return how.split(";")[0] in UNDER_WAY


def own_of(run: Run, me: Me, memory: Memory, waits: Sequence[Request]) -> tuple[list[Request], int]:
    """The caller's own requests that are under way, were so at the last look or are new since; and
    the number of the last request that is seen."""
    found = {one.number: one for one in waits if one.submitter == me.name}
    # (at the first look what ended is of no interest)
    last = max((one.number for one in waits), default=0) if memory.new else memory.next - 1
    for value in run.desk.listed("/requests", last + 1):
        one = shaped(Request, value)
        last = one.number
        found |= {one.number: one} if one.submitter == me.name else {}
    for number, how in memory.own.items():
        if int(number) not in found and is_under_way(how):
            try:
                found[int(number)] = request_of(run.desk, int(number))
            except Refused as refused:
                # (an older state of the desk, from a copy)
                if refused.name != "NoSuchRequest":
                    raise
    return [found[number] for number in sorted(found)], last


def look(run: Run, me: Me, memory: Memory) -> tuple[list[Event], list[Request], int]:
    """What is new to the caller; one's own requests; the number of the last one that is seen."""
    found = waiting_of(run.desk)
    waits = [shaped(Request, value) for value in found.requests]
    events = [proposed(shaped(Counts, value)) for value in found.proposals]
    events += [event for one in waits for event in asked(me, one)]
    own: list[Request] = []
    last = 0
    if me.role in ("submitter", "reviewer"):
        own, last = own_of(run, me, memory, waits)
        events += [event for one in own for event in memory.changed(me, one)]
    if waits:
        events += barred(me, waits, revoked_of(run.desk))
    memory.told &= {event.name() for event in events}
    new = [one for one in events if one.kind == "changed" or one.name() not in memory.told]
    return new, own, last


def private(path: str, flags: int) -> int:
    return os.open(path, flags, 0o600)


def tell(run: Run, event: Event) -> None:
    """Tells of one event: to the command, into the file, or on standard output."""
    found: dict[str, Any] = {"desk": str(run.desk.where), **asdict(event)}
    line = desk_json(found) if run.words.json else printable(event.words)
    if run.words.handler is not None:
        handed(command_of(run.words.handler), line + "\n")
    elif run.words.into:
        try:
            # (what waits is nobody else's: a file that isn't there yet is the caller's alone)
            with open(run.words.into, "a", encoding="utf-8", opener=private) as file:
                file.write(line + "\n")
        except OSError as error:
            broken(f"{run.words.into}: {reason(error)}")
    else:
        run.terminal.say(line)
        run.terminal.flush()


def command_of(text: str) -> list[str]:
    """The words of a command, whose program is there. No shell reads them."""
    try:
        words = shlex.split(text)
    except ValueError as error:
        wrong(f"--exec {printable(text)}: {error}")
    if not words or not shutil.which(words[0]):
        wrong(f"--exec {printable(text)}: there is no such program", "Is it installed?")
    return words


def handed(command: list[str], line: str) -> None:
    """The event as a command's standard input."""
    environment = {name: text for name, text in os.environ.items() if name != "DESK_TOKEN"}
    name = printable(command[0])
    try:
        ran = subprocess.run(command, input=line.encode(), env=environment, check=False,
                             timeout=600)
    except (OSError, subprocess.TimeoutExpired) as error:
        broken(f"{name}: {reason(error)}")
    if ran.returncode:
        broken(f"{name} ended with status {ran.returncode}",
               "It will be told of the same event again.")


def turn(run: Run, me: Me, memory: Memory) -> None:
    """Looks, unless the desk says that nothing changed. To a submitter it doesn't say that of the
    lists which bar images."""
    changes = changes_of(run.desk)
    if changes < memory.changes:
        run.terminal.warn(lost(me, memory.changes))
    if changes == memory.changes and not (me.role == "submitter" and memory.own):
        return
    events, own, last = look(run, me, memory)
    for event in events:
        tell(run, event)
        memory.keep(event, own)
        if run.words.handler:
            memory.write()
    memory.close(last, changes)


def watch(run: Run) -> None:
    if run.words.handler is not None:
        command_of(run.words.handler)
    me = me_of(run.desk)
    memory = Memory(run)
    while True:
        begun = time.monotonic()
        try:
            turn(run, me, memory)
        except Stop as stop:
            if run.words.once or not (isinstance(stop, Lost) or stop.status == LOST):
                raise
            run.terminal.warn(f"deskctl: {printable(stop)}; still watching")
        if run.words.once:
            return
        rest = max(MINUTE, REST * (time.monotonic() - begun))
        time.sleep(rest if run.words.every is None else max(run.words.every, 1.0))
