"""The desk in plain Python, written from docs/FORMATS.md, docs/REFUSALS.md, docs/WALKTHROUGH.md and
the definitions of desk_history, and from no code of the desk: what each call, each read and each
export is answered after the calls before it.

It leaves out what other checks show: the refusals of images (which are taken to be right), of heads
and of lengths, and Full."""
from __future__ import annotations

import hashlib
from typing import Any, Optional

from checks.model.asking import Asked, command_of, numbered
from checks.model.commands import Command
from checks.model.facts import Facts, NUMBERS, Refusal, facts_of, refuse_if
from checks.model.held import (
    ALLOWED, Entries, Force, Image, Minute, Person, Proposal, Request, Verdict, certificate_list
)
from checks.support.images import SHA256_KIND, X509_KIND, signature_list
from checks.support.messages import octets, ok, refused, text, waiting


class Desk:
    """The desk: its answers to calls, and what it shows and exports."""

    def __init__(self) -> None:
        self.people: dict[str, Person] = {}
        self.minutes: list[Minute] = []
        self.by_key: dict[tuple[str, str], Minute] = {}
        self.requests: list[Request] = []
        self.images: list[Image] = []
        # Listed certificates and digests, with the bodies that the last calls gave; and all bodies
        # that calls gave.
        self.listed: dict[str, dict[str, bytes]] = {"digest": {}, "certificate": {}}
        self.bodies: list[tuple[str, bytes]] = []
        self.force = Force()
        self.proposals: list[Proposal] = []

    # ---- calls

    def outcome(self, caller: str, key: str, command: "Command") -> str:
        """`accepted`, `repeated` or the name of the refusal. Nothing changes."""
        earlier = self.by_key.get((caller, key))
        if earlier is not None:
            return "repeated" if earlier.text == command.text() else "KeyReused"
        try:
            role = self.people[caller].role if caller != "console" else caller
            refuse_if(role not in command.roles, "NotYourRole")
            command.refuses(self, caller)
        except Refusal as why:
            return why.name
        return "accepted"

    def call(self, caller: str, key: str, command: "Command") -> Minute:
        """The minute of the call, which joins the others if it is accepted."""
        what = self.outcome(caller, key, command)
        if what == "accepted":
            told = command.text()
            self.by_key[caller, key] = Minute(caller, key, told, *command.applied(self, caller))
            self.minutes.append(self.by_key[caller, key])
        elif what != "repeated":
            raise Refusal(what)
        return self.by_key[caller, key]

    def request(self, number: int) -> Request:
        refuse_if(not 1 <= number <= len(self.requests), "NoSuchRequest")
        return self.requests[number - 1]

    def proposal(self, number: int) -> Proposal:
        refuse_if(not 1 <= number <= len(self.proposals), "NoSuchProposal")
        return self.proposals[number - 1]

    # ---- images

    def is_listed(self, facts: Facts) -> bool:
        return facts.digest in self.listed["digest"] or bool(
            {*facts.carried} & {*self.listed["certificate"]}
        )

    def verdict(self, facts: Facts) -> Verdict:
        not_listed = None if self.is_listed(facts) else {"verdict": "not-listed"}
        return self.force.bars_by_dbx(facts) or not_listed or self.force.below(facts) or ALLOWED

    def impact(self, number: int) -> dict[str, Any]:
        """What a Confirm by another officer would do."""
        proposal = self.proposal(number)
        refuse_if(proposal.state != "open", "ProposalClosed")
        self.force.refuses(proposal.entries)
        later = self.force.after(proposal.entries)
        bars = []
        for request, file, facts in self.images:
            rule = None if self.force.bars(facts) else later.bars(facts)
            if rule is not None:
                who = {
                    "submitter": request.submitter, "title": request.title, "state": request.state()
                }
                bars.append(
                    {
                        **who, "allowed": self.verdict(facts) == ALLOWED, "by": rule, "file": file,
                        "request": request.number
                    }
                )
        return {
            "adds": self.adds(proposal.entries), "bars": bars, "dbx": len(later.dbx()),
            "proposal": number
        }

    def adds(self, entries: Entries) -> dict[str, int]:
        """How many digests, certificates and names the entries add to what is in force."""
        return {
            "certificates": len({*entries.certificates} - self.force.certificates),
            "components": len(self.force.raised(entries)),
            "digests": len({*entries.digests} - self.force.digests)
        }

    # ---- what is shown

    def shown_to(self, caller: str) -> list[Request]:
        """The requests that a person is shown."""
        is_submitter = self.people[caller].role == "submitter"
        return [one for one in self.requests if one.submitter == caller or not is_submitter]

    def waits_for(self, caller: str, request: Request) -> bool:
        """Whether something is to be done about the request: by the caller, or for them."""
        role, state, is_own = self.people[caller].role, request.state(), request.submitter == caller
        if caller in [reviewer for reviewer, _, _ in request.votes]:
            return False
        if role == "signer":
            return state == "approved"
        if role == "reviewer" and not is_own:
            return state == "open"
        return is_own and state in ("open", "approved")

    def waiting(self, caller: str) -> tuple[list[Request], list[Proposal]]:
        """What waits for a person."""
        is_officer = self.people[caller].role == "officer"
        return (
            [one for one in self.shown_to(caller) if self.waits_for(caller, one)],
            [
                one for one in self.proposals
                if is_officer and one.state == "open" and one.officer != caller
            ],
        )

    def changes(self, caller: str) -> int:
        """The number that tells a person of changes."""
        if self.people[caller].role != "submitter":
            return len(self.minutes)
        ends = {"withdrawn": 1, "signed": 2}
        return sum(1 + len(one.votes) + ends.get(one.state(), 0) for one in self.shown_to(caller))

    def report(self) -> str:
        states = [one.state() for one in self.requests]
        rows = {
            "people": len(self.people), "requests": len(states),
            **{
                one: states.count(one)
                for one in ("open", "approved", "rejected", "withdrawn", "signed")
            },
            "listed digests": len(self.listed["digest"]),
            "listed certificates": len(self.listed["certificate"]),
            "revoked digests": len(self.force.digests),
            "revoked certificates": len(self.force.certificates),
            "level components": len(self.force.level), "commands": len(self.minutes),
            "stamp": self.force.stamp
        }
        return "".join(f"{label:<24}{value:>10}\n" for label, value in rows.items())

    def lines(self, first: int = 1) -> str:
        """The lines of the minutes from this number on."""
        rows = [*enumerate(self.minutes, 1)][first - 1 :]
        return "".join(
            f"{number}\t{one.caller}\t{one.key}\t{one.text}\t{one.reply}\n" for number, one in rows
        )

    # ---- exports

    def db(self) -> bytes:
        certificates = sorted(self.listed["certificate"].items())
        digests = signature_list(
            SHA256_KIND, [bytes.fromhex(one) for one in sorted(self.listed["digest"])]
        )
        return digests + b"".join(signature_list(X509_KIND, [body]) for _, body in certificates)

    def shim(self) -> bytes:
        given = dict.fromkeys(self.bodies)
        known = [
            signature_list(X509_KIND, [body]) for tbs in sorted(self.force.certificates)
            for of, body in given if of == tbs
        ]
        unknown = self.force.certificates - {tbs for tbs, _ in given}
        return self.force.digest_list() + b"".join(known) + certificate_list(unknown)

    def exports(self) -> dict[str, bytes]:
        return {
            "minutes": self.lines().encode(), "dbx": self.force.dbx(), "db": self.db(),
            "level": self.force.level_text().encode(), "shim": self.shim()
        }

    # ---- requests of HTTP

    def caller(self, token: str) -> str:
        """The person who has this token."""
        digest = hashlib.sha256(token.encode()).hexdigest()
        found = next((name for name, one in self.people.items() if one.token == digest), None)
        if found is None:
            raise Refusal("UnknownCaller")
        return found

    def respond(self, asked: "Asked") -> bytes:
        """The response to a request with a token, of a path and a method that are there."""
        try:
            caller = self.caller(asked.token)
            if asked.key is None:
                return self.read(caller, asked)
            return ok(self.call(caller, asked.key, self.matched(caller, asked)).json)
        except Refusal as why:
            return refused(NUMBERS[why.name], why.place)

    def matched(self, caller: str, asked: "Asked") -> Command:
        """The command of a request, unless the caller is shown something of its number that has
        another tag than If-Match gives."""
        command, wanted = command_of(asked), asked.tag()
        what, number, _ = asked.parts()
        shown = self.tags(caller, what).get(int(number or 0)) if wanted is not None else None
        refuse_if(shown is not None and shown != wanted, "Mismatch")
        return command

    def tags(self, caller: str, what: str) -> dict[int, str]:
        """The tags of the requests or the proposals that a person is shown, by their numbers."""
        if what == "requests":
            return {one.number: one.facts.file for one in self.shown_to(caller)}
        is_officer = self.people[caller].role == "officer"
        return {one.number: one.entries.tag() for one in self.proposals if is_officer}

    def read(self, caller: str, asked: "Asked") -> bytes:
        """The response to a request that is no command."""
        what, number, part = asked.parts()
        if number == "from" and part is not None:
            return self.part(caller, what, int(part))
        if number == "with" and part is not None:
            having = [one for one in self.shown_to(caller) if one.has(part.lower())]
            return ok([one.shown() for one in having[:1000]])
        if what == "waiting":
            requests, proposals = self.waiting(caller)
            return waiting([one.shown() for one in requests], [one.row() for one in proposals])
        if what == "changes":
            return ok({"changes": self.changes(caller)})
        if what == "verdict":
            return ok(self.verdict(facts_of(asked.body)))
        if what == "facts":
            return ok(facts_of(asked.body).shown())
        if what == "requests":
            shown = self.shown_to(caller)
            if number is None:
                return ok([one.shown() for one in shown])
            wanted = numbered(number, "NoSuchRequest")
            found = [one.shown() for one in shown if one.number == wanted]
            refuse_if(not found, "NoSuchRequest")
            return ok(found[0])
        if what in ("dbx", "db"):
            return octets(self.exports()[what])
        if what == "level":
            return text(self.force.level_text())
        if what == "me":
            return ok({"name": caller, "role": self.people[caller].role})
        return self.read_as_officer(caller, what, number, part)

    def part(self, caller: str, what: str, first: int) -> bytes:
        """The response to a request for a list from this number on."""
        is_officer = self.people[caller].role == "officer"
        refuse_if(what == "proposals" and not is_officer, "NotYourRole")
        rows = [
            one.shown() for one in self.shown_to(caller)
        ] if what == "requests" else [one.row() for one in self.proposals]
        return ok([row for row in rows if row["number"] >= first][:1000])

    def read_as_officer(
        self, caller: str, what: str, number: Optional[str], part: Optional[str]
    ) -> bytes:
        """The response to a request that only officers are answered. A proposal's number comes
        before the role."""
        chosen = numbered(
            number, "NoSuchProposal"
        ) if what == "proposals" and number is not None else 0
        refuse_if(self.people[caller].role != "officer", "NotYourRole")
        if what == "report":
            return text(self.report())
        if what == "people":
            return ok(
                [{"name": name, "role": self.people[name].role} for name in sorted(self.people)]
            )
        if what == "minutes":
            return text("".join(self.lines(int(number or 0)).splitlines(keepends=True)[:1000]))
        if number is None:
            return ok([one.row() for one in self.proposals])
        return ok(self.impact(chosen) if part == "impact" else self.proposal(chosen).shown())
