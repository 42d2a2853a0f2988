"""Calls to a desk, and what has to hold after each stop of them: the desk opens, its tables are
those without the call or with it, with it if the answer was written, and the same call with the
same key gets the same answer."""
from __future__ import annotations

from typing import Iterable, NamedTuple, Sequence

from checks.desk.stops.left import Stop, at, places, remains, stops_of
from checks.desk.stops.places import (
    AGAIN, DESK, ENDS, EXPORTS, STOPPED, Broken, Call, Files, Ran, adds, asks, place
)
from checks.support.images import CERTIFICATE, TBS, authenticode, digest
from checks.support.messages import got
from checks.support.says import expect
from checks.support.steps import (Step, lists, named, proposes, raising, reviews, submits, takes)
from checks.support.tools import EXAMPLES

# What desks with these tables export.
EXPORTED: dict[str, dict[str, bytes]] = {}


def exported(files: Files, tables: str) -> dict[str, bytes]:
    """What the desk in these files exports, and its answer to an officer about proposals. A desk
    with the same tables isn't asked again."""
    if tables not in EXPORTED:
        found = {one: place().gives(files, (one, DESK)) for one in EXPORTS}
        found["proposals"] = place().gives(files, ("answer", DESK), got("olga", "/proposals"))
        EXPORTED[tables] = found
    return EXPORTED[tables]


def keys(minutes: bytes) -> list[str]:
    return [line.split("\t")[2] for line in minutes.decode().splitlines()]


class Barred(NamedTuple):
    """An image that a desk refuses, the verdict's line, and the digest that dbx has for it."""

    image: str
    line: bytes
    digest: bytes


# The tables of which a desk refused an image.
JUDGED: set[tuple[str, Barred]] = set()


class Case:
    """Calls to the desk in these files, and its tables before and after each of them, without a
    stop."""

    def __init__(
        self, name: str, files: Files, calls: Sequence[Call], barred: Barred | None = None
    ) -> None:
        self.name, self.files, self.calls, self.barred = name, files, calls, barred
        # By the sum of the files that a stop left: how many of the calls are there, and the files
        # once each was given again.
        self.found: dict[str, tuple[int, Files]] = {}
        place().gives(files, ("level", DESK))
        self.states = [place().tables()]
        minutes = exported(files, self.states[0])["minutes"]
        for call in calls:
            files = self.accepted(files, call)
            self.states.append(place().tables())
            before, minutes = minutes, exported(files, self.states[-1])["minutes"]
            if not minutes.startswith(before) or keys(minutes[len(before) :]) != [call.key]:
                raise Broken(f"{name}: the minutes have not one line more, of its key")
        self.after = files

    def accepted(self, files: Files, call: Call) -> Files:
        """The files after a call."""
        ran = place().run(files, call.words, call.given)
        if (ran.status, ran.answers) != (0, [call.due]):
            raise Broken(
                f"{self.name}, key {call.key}: in place of {call.due!r} came {ran.answers[0]!r},"
                f" status {ran.status}, {ran.err!r}"
            )
        return ran.written

    def run(self, stop: Stop | None = None) -> Ran:
        """A run with the only call, stopped so."""
        (call,) = self.calls
        return place().run(self.files, call.words, call.given, STOPPED, *at(stop))

    def least(self, ran: Ran) -> int:
        """How many of the calls a run answered."""
        return int(ran.answers[0] == self.calls[0].due)

    def told(self, whole: Ran, stop: Stop, left: str) -> str:
        """A stop, so that it can be run again alone."""
        calls = ["", *whole.calls, "after its last call"]
        return f"{self.name}, {stop.way} {stop.number} ({calls[stop.number]}), {left} left"

    def stopped(self, whole: Ran, stop: Stop) -> Ran:
        """The run that is stopped so."""
        if stop.number > len(whole.calls):
            return whole
        ran = self.run(stop)
        if ran.calls[: stop.number] != whole.calls[: stop.number]:
            raise Broken(f"{self.told(whole, stop, 'nothing')}: other calls than without a stop")
        if ran.status != ENDS[stop.way]:
            raise Broken(f"{self.told(whole, stop, 'nothing')}: status {ran.status}, {ran.err!r}")
        return ran

    def bars(self, what: str) -> None:
        """The desk that was just closed refuses the image. One with the same tables isn't asked
        again."""
        tables = place().tables()
        if self.barred and (tables, self.barred) not in JUDGED:
            files = place().left()
            try:
                verdict = place().gives(files, ("verdict", DESK, self.barred.image), status=1)
                dbx = place().gives(files, ("dbx", DESK))
            except Broken as one:
                raise Broken(f"{what}: {one}") from None
            if verdict != self.barred.line or self.barred.digest not in dbx:
                raise Broken(f"{what}: the verdict is {verdict!r}, and dbx {dbx.hex()}")
            JUDGED.add((tables, self.barred))

    def opened(self, left: Files, what: str) -> tuple[int, Files]:
        """How many of the calls are in the desk that opens in these files. Each then has its
        answer, and the tables are those of all once."""
        ran = place().run(left, ("level", DESK))
        if ran.status:
            raise Broken(f"{what}: no desk opens: status {ran.status}, {ran.err!r}")
        tables = place().tables()
        if tables not in self.states:
            raise Broken(f"{what}: neither the desk without the call nor the desk with it")
        self.bars(what)
        files = left
        for call in self.calls:
            ran = place().run(files, call.words, call.given, AGAIN)
            if (ran.status, ran.answers) != (0, [call.due]):
                raise Broken(f"{what}: another answer to key {call.key}: status {ran.status},"
                    f" {ran.answers[0]!r}, {ran.err!r}")
            files = ran.written
        if place().tables() != self.states[-1]:
            raise Broken(f"{what}: other tables after its key")
        self.bars(f"{what}, its key given again")
        return self.states.index(tables), files

    def holds(self, left: Files, least: int, what: str) -> Files:
        """The desk in these files has at least so many of the calls. The files once each was given
        again."""
        name = left.sum()
        if name not in self.found:
            self.found[name] = self.opened(left, what)
        count, files = self.found[name]
        if count < least:
            raise Broken(f"{what}: an answered call isn't there")
        return files

    def outlives(self, whole: Ran, stop: Stop) -> list[Files]:
        """The files after each way in which the stop may leave them, once the calls were given
        again."""
        ran = self.stopped(whole, stop)
        return [
            self.holds(left, self.least(ran), self.told(whole, stop, name))
            for name, left in remains(ran).items()
        ]

    def whole(self) -> Ran:
        """The run without a stop."""
        ran = self.run()
        if ran.status or ran.answers[-1] != self.calls[-1].due or not ran.calls:
            raise Broken(f"{self.name}: status {ran.status}, {ran.answers[-1]!r}, {ran.err!r},"
                f" {len(ran.calls)} calls that count")
        return ran

    def meets(self, every: bool = False) -> None:
        """The calls meet each stop."""
        whole = self.whole()
        self.meets_at(whole, places(len(whole.calls), every))

    def meets_at(self, whole: Ran, numbers: Iterable[int]) -> None:
        """The calls meet the stops at the calls of these numbers."""
        for stop in stops_of(len(whole.calls), numbers):
            self.outlives(whole, stop)


PEOPLE = (
    ("ann", "submitter"), ("rita", "reviewer"), ("raul", "reviewer"), ("sid", "signer"),
    ("olga", "officer"), ("otto", "officer")
)


def csv_of(digests: Iterable[str]) -> bytes:
    return "".join(["kind,value,generation\n", *(f"sha256,{one},\n" for one in digests)]).encode()


# The three hundred digests of an import.
DIGESTS = [f"{number:064x}" for number in range(1, 301)]
CSV = csv_of(DIGESTS)
# An image that is barred by its digest, and one that is barred by its certificate.
TINY_FILE, SIGNED_FILE = str(EXAMPLES / "tiny.efi"), str(EXAMPLES / "signed.efi")
TINY, SIGNED = (EXAMPLES / "tiny.efi").read_bytes(), (EXAMPLES / "signed.efi").read_bytes()
TINY_DIGEST = authenticode(TINY)
BY_DIGEST = Barred(TINY_FILE, b"refused dbx-digest\n", bytes.fromhex(TINY_DIGEST))
BY_CERTIFICATE = Barred(SIGNED_FILE, b"refused dbx-certificate\n", bytes.fromhex(TBS))


def off(name: str, key: str, kind: str, entry: str) -> Step:
    """The command that takes an entry off the list."""
    return takes(name, key, "/db/unlist", named(entry, kind=kind), {"reply": "unlisted"})


def listed(key: str, body: bytes = CERTIFICATE) -> Step:
    return takes("olga", key, "/db/certificates", body, {"reply": "listed"})


def raised(
    key: str, number: int, component: str = "grub", generation: int = 3, stamp: int = 2024010100
) -> Step:
    """An officer proposes a level."""
    return proposes("olga", key, "/level", raising(component, generation, stamp), number)


def imported(key: str, number: int, body: bytes = CSV) -> Step:
    return proposes("olga", key, "/imports/csv", body, number)


# The calls by which a desk is ready for each command: its people; two requests, the second of them
# approved; what is listed; and three proposals for otto to confirm.
READY = [
    *(adds(name, role, f"k-{name}") for name, role in PEOPLE),
    *map(asks, (
        submits("ann", "k1", SIGNED, "open", 1),
        submits("ann", "k2", SIGNED, "approved", 2),
        reviews("rita", "k1", 2, "yes", "open"),
        reviews("raul", "k1", 2, "yes", "approved"),
        listed("k1"),
        lists("olga", "k2", digest("aa")),
        lists("olga", "k3", TINY_DIGEST),
        proposes("olga", "k4", "/dbx/digests", named(TINY_DIGEST), 1),
        raised("k5", 2),
        imported("k6", 3),
    )),
]


def after(files: Files, calls: Sequence[Call]) -> Files:
    """The files once each call was accepted."""
    for call in calls:
        expect(place().gives(files, call.words, call.given), call.due, f"key {call.key}")
        files = place().left()
    return files
