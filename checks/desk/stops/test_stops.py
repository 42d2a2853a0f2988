"""Stops of the program at its calls on a real file and its log.

A case begins on a desk that was closed, and is stopped at k = 1, 2, .. up to the end of its run; in
a run of a hundred calls or more, a stride skips some after k = 20. After each stop the two files
are opened as often as their contents differ: with all that was written; with what was synced; with
that and the first half of what was written to the log since its last sync. The desk opens, and its
tables are those of the desk without the call, or of the desk with it; with it if the answer was
written. What these two export differs by the call's line of the minutes. The same call with the
same key gets the same answer, and the tables are those of one acceptance. A failure names the stop:
STOP_AT='WAY NUMBER' and `-k CASE` run it alone. Last, programs that break the rule have to fail."""
from __future__ import annotations

import itertools
from pathlib import Path
from typing import Sequence

import pytest

from checks.desk.stops.cases import (
    DIGESTS, EXPORTED, SIGNED, TINY, Case, after, imported, listed, off, raised
)
from checks.desk.stops.left import Stop, at, places, remains, spread, stops_of
from checks.desk.stops.places import (
    DESK, STOPPED, Broken, Call, Files, Place, Ran, adds, asks, place
)
from checks.support.images import OWNER, digest, digest_list
from checks.support.says import expect
from checks.support.steps import (
    confirms, drops, explains, lists, named, proposes, returns, reviews, submits, takes
)
from checks.support.tools import ran

pytestmark = [pytest.mark.needs("cc", "sqlite3"), pytest.mark.usefixtures("a_place")]

# ---- init


def is_made(left: Files, least: bool, tables: str, what: str) -> None:
    """There is an empty desk, beside which no other is made; or none, and then one is made, unless
    it was told to be there."""
    init = ("init", DESK, OWNER)
    ran = place().run(left, ("minutes", DESK))
    if ran.status == 0:
        found = place().run(ran.written, init)
        if ran.answers != [b""] or (found.status, found.err) != (1, b"refused 46 Exists\n"):
            raise Broken(f"{what}: minutes {ran.answers[0]!r}, and init again: {found.err!r}")
        place().gives(found.written, ("minutes", DESK))
    elif least or not ran.err.startswith((b"refused 43 NotADesk\n", b"device 45 File\n")):
        raise Broken(f"{what}: neither a desk nor none: {ran.err!r}")
    else:
        made = place().run(left, init)
        if made.status or place().gives(made.written, ("minutes", DESK)):
            raise Broken(f"{what}: no empty desk after it: {made.err!r}")
    if place().tables() != tables:
        raise Broken(f"{what}: other tables than those of a new desk")


class Making(Case):
    """The making of a desk where there is no file."""

    def __init__(self) -> None:
        self.name, self.files, self.calls = "init", Files(), [
            Call(("init", DESK, OWNER), b"", b"", "")
        ]

    def meets(self, every: bool = False) -> None:
        whole = self.whole()
        tables, found = place().tables(), set()
        for stop in stops_of(len(whole.calls), places(len(whole.calls), every)):
            ran = self.stopped(whole, stop)
            for name, left in remains(ran).items():
                if (left, ran.status) not in found:
                    is_made(left, ran.status == 0, tables, self.told(whole, stop, name))
                    found.add((left, ran.status))


def test_init_leaves_an_empty_desk_or_none(a_place: Place) -> None:
    """Beside an empty desk `init` is Exists; where there is none it makes it."""
    Making().meets()


# ---- each command

# A call of each command on that desk; a Confirm of a digest, of a level, and of an import.
COMMANDS = {
    "a person": adds("eva", "submitter", "k-eva"),
    "a submission": asks(submits("ann", "k9", TINY, "stopped", 3)),
    "a review": asks(reviews("rita", "k9", 1, "yes", "open")),
    "a withdrawal": asks(
        takes("ann", "k9", "/requests/1/withdraw", b"", {"reply": "withdrawn", "request": 1})
    ),
    "a return": asks(returns("sid", "k9", 2, SIGNED)),
    "a listed certificate": asks(listed("k9", bytes.fromhex("30053003020102"))),
    "a listed digest": asks(lists("olga", "k9", digest("bb"))),
    "an entry off the list": asks(off("olga", "k9", "digest", digest("aa"))),
    "a proposed digest": asks(proposes("olga", "k9", "/dbx/digests", named(digest("cc")), 4)),
    "a proposed certificate": asks(
        proposes("olga", "k9", "/dbx/certificates", named(digest("cc")), 4)
    ),
    "a proposed level": asks(raised("k9", 4)),
    "a proposed import": asks(imported("k9", 4)),
    "a confirmed digest": asks(confirms("otto", "k9", 1, 1, 0, 0, 0)),
    "a confirmed level": asks(confirms("otto", "k9", 2, 0, 0, 1, 0)),
    "a confirmed import": asks(confirms("otto", "k9", 3, 300, 0, 0, 0)),
    "a dropped import": asks(drops("olga", "k9", 3)),
    "a reason": asks(explains("olga", "k9", 3, "lost"))
}


@pytest.mark.long(60)
@pytest.mark.parametrize("name", [name for name in COMMANDS if name != "a confirmed import"])
def test_a_command_is_there_whole_or_not_at_all(desks: dict[str, Files], name: str) -> None:
    Case(name, desks["ready"], [COMMANDS[name]]).meets()


def test_the_first_person_is_there_whole_or_not_at_all(desks: dict[str, Files]) -> None:
    Case("the first person", desks["new"], [adds("ann", "submitter", "k1")]).meets()


@pytest.mark.long(200)
def test_an_import_of_300_digests_is_confirmed_whole_or_not_at_all(desks: dict[str, Files]) -> None:
    """It is stopped at every call: before it dbx has no byte, after it the list of all, in
    14,428."""
    case = Case("a confirmed import", desks["ready"], [COMMANDS["a confirmed import"]])
    before, dbx = (EXPORTED[tables]["dbx"] for tables in case.states)
    expect((before, dbx, len(dbx)), (b"", digest_list(DIGESTS), 14_428), "dbx before it and after")
    case.meets(every=True)


# ---- a checkpoint within a call


class Filled(Case):
    """A call to a server that answered others before, by which its log grew."""

    def __init__(self, name: str, files: Files, fill: Sequence[Call], call: Call) -> None:
        self.begin, self.fill = files, fill
        super().__init__(name, after(files, fill), [call])

    def run(self, stop: Stop | None = None) -> Ran:
        """A run with all calls; of its answers the last."""
        given = [one.given for one in (*self.fill, *self.calls)]
        ran = place().serve(self.begin, given, STOPPED, *at(stop))
        if ran.answers[:-1] != [b"", *(one.due for one in self.fill[1:])]:
            raise Broken(f"{self.name}: another answer before it")
        return ran._replace(answers=ran.answers[-1:])


def copies(ran: Ran) -> list[int]:
    """The numbers of the calls that copy the log into the file, for the first time after the first
    answer."""
    later = [*enumerate(ran.calls, 1)][ran.marks[0] :]
    found = itertools.dropwhile(lambda one: one[1] != "pwrite db", later)
    return [number for number, _ in itertools.takewhile(lambda one: one[1].endswith(" db"), found)]


@pytest.mark.long(250)
def test_a_call_that_copies_the_log_keeps_all_calls_before_it(desks: dict[str, Files]) -> None:
    """A call that copies a log of 1,000 frames into the file before its commit. It is stopped at
    some of the copy's calls, and at each call behind these."""
    name, calls = "a call with a checkpoint", [
        asks(lists("olga", f"f-{one}", f"{one:064x}")) for one in range(400)
    ]
    ran = place().serve(desks["ready"], [one.given for one in calls], STOPPED)
    # the call that does so, and those before it
    last = sum(one < copies(ran)[0] for one in ran.marks)
    case = Filled(name, desks["ready"], calls[:last], calls[last])
    whole = case.whole()
    copied = copies(whole)
    if last + 1 == len(calls) or copied[0] <= whole.marks[-2] or whole.calls[
        copied[-1]
    ] != "pwrite log":
        raise Broken(f"{name}: the log isn't copied within a call")
    case.meets_at(
        whole, [*spread(copied[0], copied[-1], 5), *range(copied[-1] + 1, len(whole.calls) + 1)]
    )


# ---- programs that break the rule

FRONT = """#!/bin/sh
program='{program}' library=${{LD_PRELOAD-}}
unset LD_PRELOAD
{text}
"""
BREAKS = {
    "answers before its commit": """subcommand=$1 db=$2
if [ "$subcommand" = person ]; then
    shift 2
    cat > "$db.given"
    cp "$db" "$db.early"
    rm -f "$db.early-wal"
    [ ! -e "$db-wal" ] || cp "$db-wal" "$db.early-wal"
    "$program" person "$db.early" "$@" < "$db.given"
    LD_PRELOAD=$library exec "$program" person "$db" "$@" < "$db.given" > /dev/null
fi
LD_PRELOAD=$library exec "$program" "$@"
""",
    "doesn't sync": 'LD_PRELOAD="{unsynced} $library" exec "$program" "$@"\n',
    "opens a desk without its log": 'rm -f "$2-wal"\nLD_PRELOAD=$library exec "$program" "$@"\n',
}
UNSYNCED = b"int fsync(int fd) { return 0 * fd; }\nint fdatasync(int fd) { return 0 * fd; }\n"


@pytest.mark.long(30)
@pytest.mark.parametrize("what", BREAKS)
def test_a_program_that_breaks_the_rule_is_found_out(
    a_place: Place, desks: dict[str, Files], room: Path, what: str, monkeypatch: pytest.MonkeyPatch
) -> None:
    """It loses an answered call."""
    unsynced = room / "unsynced.so"
    ran("cc", "-shared", "-fPIC", "-o", unsynced, "-xc", "-", given=UNSYNCED)
    text = BREAKS[what].replace("{unsynced}", str(unsynced))
    front = room / "front"
    front.write_text(FRONT.format(program=a_place.program, text=text))
    front.chmod(0o755)
    monkeypatch.setattr(a_place, "program", str(front))
    with pytest.raises(Broken, match="an answered call isn't there$"):
        Case("a person", desks["ready"], [COMMANDS["a person"]]).meets()
