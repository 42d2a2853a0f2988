"""A walk of requests at a desk, each response beside that of the model."""
from __future__ import annotations

import contextlib
import sqlite3
from collections import Counter
from typing import Iterator

from checks.model.asking import Asked
from checks.model.chance import Chance, outcome_of
from checks.model.commands import AddPerson
from checks.model.desk import Desk
from checks.model.facts import facts_of
from checks.model.held import ALLOWED, Verdict
from checks.model.tables import unsigned
from checks.model.wishes import (
    CALLERS, EACH, FORESEEN, IMPACT_REFUSALS, OTHERS, OVER, PROPOSALS, REFUSED, ROUTES, ROWS, Wish,
    route_of, wishes
)
from checks.support.images import sha256
from checks.support.messages import PEOPLE, request, token
from checks.support.program import Program
from checks.support.says import expect
from checks.support.server import Server

# How many requests `lists` sends.
LISTS = 11


def bytes_of(asked: Asked) -> bytes:
    """The request as it is sent."""
    fields = [("Desk-Token", asked.token)]
    fields += [("Desk-Key", asked.key)] if asked.key is not None else []
    fields += [("Desk-Title", asked.title)] if asked.title else []
    fields += [("Desk-Stamp", str(asked.stamp))] if asked.stamp is not None else []
    fields += [("If-Match", one) for one in asked.match]
    return request(asked.method, asked.path, fields, asked.body if asked.method == "POST" else None)


def verdict_words(verdict: Verdict) -> str:
    """A verdict as a line has it."""
    if verdict["verdict"] == "sbat":
        return "sbat {component} {generation} {level}".format(**verdict)
    return str(verdict["verdict"])


def impact_lines(desk: Desk, number: int) -> str:
    """The lines of `impact`, docs/FORMATS.md."""
    told = desk.impact(number)
    rows = [
        [
            one["request"], one["file"], one["state"], one["submitter"],
            "allowed" if one["allowed"] else "refused", verdict_words(one["by"]), one["title"]
        ]
        for one in told["bars"]
    ]
    return "".join("\t".join(map(str, row)) + "\n" for row in rows) + f"dbx {told['dbx']}\n"


class Walk:
    """A desk's file, the model beside it, and how often each command had each outcome."""

    def __init__(self, program: Program, seed: int) -> None:
        self.program = program
        with contextlib.closing(sqlite3.connect(program.at("walk.db"))) as one:
            one.executescript(OTHERS)
        self.path = program.founded("walk.db")
        self.chance = Chance(seed)
        self.model = self.chance.desk
        for name, role in PEOPLE.items():
            self.model.call("console", f"k-{name}", person(name, role))
        self.counted: Counter[tuple[str, str]] = Counter()
        self.sent, self.compared, self.foreseen = 0, 0, 0
        self.barred: Counter[str] = Counter()

    # ---- over HTTP

    def asks(self, server: Server, asked: Asked, kind: str) -> None:
        """The response is that of the model."""
        what = outcome_of(self.model, asked)
        due = self.model.respond(asked)
        self.sent += 1
        expect(
            server.ask(bytes_of(asked)), due,
            f"request {self.sent}, {kind} {what}, {asked.method} {asked.path} of {asked.token}"
        )
        self.counted[route_of(asked) if what == "repeated" else kind, what] += 1
        if what == "accepted":
            self.notes(asked, kind)

    def notes(self, asked: Asked, kind: str) -> None:
        """What an accepted request leaves for later ones."""
        if kind == "impact":
            bars = self.model.impact(int(asked.parts()[1] or 0))["bars"]
            self.barred.update(one["by"]["verdict"] for one in bars)
            self.foreseen += len(self.model.requests) >= OVER and bool(bars)
        elif asked.key is not None:
            self.chance.accepted.append(asked)
        if kind == "submit":
            self.chance.submitted.append(unsigned(asked.body))

    def lists(self, server: Server) -> None:
        """The requests as a submitter, a reviewer and an officer see them, some by digests, and
        what waits for each role."""
        for name in ("ann", "rita", "olga"):
            self.asks(server, self.chance.get(name, "/requests"), "lists")
        for name in ("ann", "rita", "olga", "rita"):
            path = f"/requests/with/{self.chance.searched()}"
            self.asks(server, self.chance.get(name, path), "lists")
        for name in ("ann", "rita", "otto", "sid"):
            self.asks(server, self.chance.get(name, "/waiting"), "lists")

    # ---- between servers

    def gives(self, status: int, out: str, err: str, *words: str, given: bytes = b"") -> None:
        """A run of the program ends so."""
        due = (status, out.encode(), err.encode())
        expect(
            self.program.run(*words, given=given), due,
            f"after {self.sent} requests, desk {' '.join(words)}"
        )
        self.compared += 1

    def exports(self) -> None:
        for name, data in self.model.exports().items():
            expect(
                self.program.gives(name, self.path), data,
                f"after {self.sent} requests, desk {name}"
            )
            self.compared += 1

    def verdicts(self) -> None:
        """The verdicts on some images, as a line each."""
        for _ in range(5):
            image = self.chance.image()
            verdict = self.model.verdict(facts_of(image))
            words = verdict_words(
                verdict
            ) if verdict == ALLOWED else f"refused {verdict_words(verdict)}"
            self.gives(
                int(verdict != ALLOWED), f"{words}\n", "", "verdict", self.path,
                self.program.file("image", image)
            )

    def impacts(self) -> None:
        """The lines of some impacts; the status is 1 if an image that is allowed would be
        barred."""
        for _ in range(3):
            asked = self.chance.wished(Wish("impact", "accepted"))
            if outcome_of(self.model, asked) == "accepted":
                number = int(asked.parts()[1] or 0)
                is_felt = any(one["allowed"] for one in self.model.impact(number)["bars"])
                self.gives(
                    int(is_felt), impact_lines(self.model, number), "", "impact", self.path,
                    str(number)
                )

    def people(self, count: int) -> None:
        """At the console: a new person, once more under the same key, another by that key, and what
        is taken."""
        new = person(f"n{count}", CALLERS[count % 2])
        self.adds(f"c{count}", new, "accepted")
        self.adds(f"c{count}", new, "repeated")
        self.adds(f"c{count}", person(f"m{count}", "officer"), "KeyReused")
        for taken in (
            person("ann", "officer"), person("console", "signer"),
            AddPerson(f"m{count}", "signer", new.token)
        ):
            self.adds(f"d{count}", taken, "NameTaken")

    def adds(self, key: str, who: AddPerson, wanted: str) -> None:
        what = self.model.outcome("console", key, who)
        expect(what, wanted, f"the model adds {who.name}")
        out, err = f"added {who.name}\n", ""
        if what in ("accepted", "repeated"):
            self.model.call("console", key, who)
        else:
            out, err = "", f"refused {22 if what == 'KeyReused' else 35} {what}\n"
        self.gives(
            int(bool(err)), out, err, "enrol", self.path, who.name, who.role, key,
            given=f"{who.token}\n".encode()
        )
        self.counted["add-person", what] += 1

    # ---- the walk

    def pieces(self) -> Iterator[list[Wish]]:
        """What is to come between two servers' ends."""
        whole = []
        for half in (0, 1):
            part = wishes(half)
            self.chance.random.shuffle(part)
            whole += part
        for begin in range(0, len(whole), EACH):
            yield whole[begin : begin + EACH]

    def serves(self, piece: list[Wish], is_killed: bool) -> None:
        """One server answers these, and the lists; then it has served them all, or it is killed."""
        with Server(self.program, self.path, len(piece) + LISTS + is_killed) as server:
            self.lists(server)
            for wish in piece:
                self.asks(server, self.chance.wished(wish), wish.kind)
            if not is_killed:
                server.ended()

    def goes(self) -> None:
        for count, piece in enumerate(self.pieces()):
            self.serves(piece, count % 2 == 1)
            self.exports()
            self.verdicts()
            self.impacts()
            self.people(count)
        with Server(self.program, self.path, LISTS) as server:
            self.lists(server)
            server.ended()
        self.exports()
        with contextlib.closing(sqlite3.connect(self.path)) as one:
            rows = one.execute(ROWS).fetchall()
        expect(
            rows, [(1, "olga", "first", "olga", "CC"), (2, "otto", "second", "otto", "CC")],
            "others' rows"
        )

    def lacking(self) -> list[str]:
        """What didn't come, or not often enough."""
        wanted = [
            (kind, what) for kind, own in REFUSED.items()
            for what in ("accepted", "UnknownCaller", "NotYourRole", "KeyReused", *own)
        ]
        wanted += [("impact", one) for one in IMPACT_REFUSALS] + [("add-person", "NameTaken")]
        wanted += [(one, "repeated") for one in ("add-person", *ROUTES)]
        found = [" ".join(one) for one in wanted if not self.counted[one]]
        rules = ("dbx-digest", "dbx-certificate", "sbat")
        found += [f"an image that a Confirm bars by {one}" for one in rules if not self.barred[one]]
        kinds = Counter(one.entries.kind for one in self.model.proposals)
        found += [
            f"proposals of kind {one}"
            for one in ("digest", "certificate", "level", "import") if not kinds[one]
        ]
        found += [] if len(self.model.proposals) >= PROPOSALS else [f"{PROPOSALS} proposals"]
        found += [] if self.foreseen >= FORESEEN else [f"{FORESEEN} impacts over {OVER} requests"]
        return found


def person(name: str, role: str) -> AddPerson:
    return AddPerson(name, role, sha256(token(name).encode()))
