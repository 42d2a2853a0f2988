"""The commands of a desk: what each is refused for, and what it leaves."""
from __future__ import annotations

from dataclasses import dataclass
from typing import TYPE_CHECKING

from checks.model.facts import Facts, refuse_if
from checks.model.held import Entries, Image, Person, Proposal, Reply, Request

if TYPE_CHECKING:
    from checks.model.desk import Desk

# ---- commands


class Command:
    """A command: its text, the roles that give it, its own conditions, and what it does, with its
    reply."""

    roles: tuple[str, ...] = ("officer",)

    def text(self) -> str:
        raise NotImplementedError

    def refuses(self, desk: Desk, caller: str) -> None:
        raise NotImplementedError

    def applied(self, desk: Desk, caller: str) -> Reply:
        raise NotImplementedError


def replied(word: str, *parts: object, **more: object) -> Reply:
    """A reply's text and its JSON."""
    return " ".join(map(str, (word, *parts))), {"reply": word, **more}


@dataclass
class AddPerson(Command):
    name: str
    role: str
    token: str
    roles = ("console",)

    def text(self) -> str:
        return f"add-person {self.name} {self.role} {self.token}"

    def refuses(self, desk: Desk, caller: str) -> None:
        tokens = [one.token for one in desk.people.values()]
        refuse_if(
            self.name == "console" or self.name in desk.people or self.token in tokens, "NameTaken"
        )

    def applied(self, desk: Desk, caller: str) -> Reply:
        desk.people[self.name] = Person(self.role, self.token)
        return replied("added", self.name)


@dataclass
class Submit(Command):
    facts: Facts
    title: str
    roles = ("submitter", "reviewer")

    def text(self) -> str:
        return f"submit {self.facts.told()} {self.title}"

    def refuses(self, desk: Desk, caller: str) -> None:
        refuse_if(desk.force.bars(self.facts) is not None, "Revoked")

    def applied(self, desk: Desk, caller: str) -> Reply:
        request = Request(len(desk.requests) + 1, caller, self.title, self.facts)
        desk.requests.append(request)
        desk.images.append(Image(request, "submitted", self.facts))
        return replied("submitted", request.number, request=request.number)


@dataclass
class Review(Command):
    number: int
    vote: str
    note: str
    roles = ("reviewer",)

    def text(self) -> str:
        return f"review {self.number} {self.vote} {self.note}"

    def refuses(self, desk: Desk, caller: str) -> None:
        request = desk.request(self.number)
        refuse_if(request.state() != "open", "WrongState")
        refuse_if(request.submitter == caller, "OwnRequest")
        refuse_if(caller in [reviewer for reviewer, _, _ in request.votes], "AlreadyReviewed")

    def applied(self, desk: Desk, caller: str) -> Reply:
        request = desk.request(self.number)
        request.votes.append((caller, self.vote, self.note))
        return replied(
            "reviewed", self.number, request.state(), request=self.number, state=request.state()
        )


@dataclass
class Withdraw(Command):
    number: int
    roles = ("submitter", "reviewer")

    def text(self) -> str:
        return f"withdraw {self.number}"

    def refuses(self, desk: Desk, caller: str) -> None:
        request = desk.request(self.number)
        refuse_if(request.submitter != caller, "NoSuchRequest")
        refuse_if(request.state() not in ("open", "approved"), "WrongState")

    def applied(self, desk: Desk, caller: str) -> Reply:
        desk.request(self.number).withdrawn = True
        return replied("withdrawn", self.number, request=self.number)


@dataclass
class Return(Command):
    number: int
    facts: Facts
    roles = ("signer",)

    def text(self) -> str:
        return f"return {self.number} {self.facts.told()}"

    def refuses(self, desk: Desk, caller: str) -> None:
        request = desk.request(self.number)
        refuse_if(request.state() != "approved", "WrongState")
        refuse_if(
            self.facts.digest not in (request.facts.signing, request.facts.digest), "DigestDiffers"
        )
        refuse_if(desk.force.bars(self.facts) is not None, "Revoked")
        refuse_if(not desk.is_listed(self.facts), "NotListed")

    def applied(self, desk: Desk, caller: str) -> Reply:
        request = desk.request(self.number)
        request.returned = self.facts
        desk.images.append(Image(request, "returned", self.facts))
        return replied("returned", self.number, request=self.number)


@dataclass
class ListEntry(Command):
    """ListDigest, which has no body, and ListCertificate."""

    kind: str
    digest: str
    body: bytes = b""

    def text(self) -> str:
        return f"list-{self.kind} {self.digest}" + (
            f" {self.body.hex()}" if self.kind == "certificate" else ""
        )

    def refuses(self, desk: Desk, caller: str) -> None:
        refuse_if(self.digest in desk.listed[self.kind], "AlreadyListed")

    def applied(self, desk: Desk, caller: str) -> Reply:
        desk.listed[self.kind][self.digest] = self.body
        if self.kind == "certificate":
            desk.bodies.append((self.digest, self.body))
        return replied("listed")


@dataclass
class Unlist(Command):
    kind: str
    digest: str

    def text(self) -> str:
        return f"unlist {self.kind} {self.digest}"

    def refuses(self, desk: Desk, caller: str) -> None:
        refuse_if(self.digest not in desk.listed[self.kind], "NotThere")

    def applied(self, desk: Desk, caller: str) -> Reply:
        del desk.listed[self.kind][self.digest]
        return replied("unlisted")


@dataclass
class Propose(Command):
    """RevokeDigest, RevokeCertificate, RaiseLevel and ImportRevocations."""

    entries: Entries

    def text(self) -> str:
        names = self.entries
        if names.kind == "level":
            name, generation = names.components[0]
            return f"raise {name} {generation} {names.stamp}"
        if names.kind == "import":
            return names.told()
        return f"revoke-{names.kind} {(names.digests + names.certificates)[0]}"

    def refuses(self, desk: Desk, caller: str) -> None:
        desk.force.refuses(self.entries)

    def applied(self, desk: Desk, caller: str) -> Reply:
        number = len(desk.proposals) + 1
        desk.proposals.append(Proposal(number, caller, self.entries))
        return replied("proposed", number, proposal=number)


@dataclass
class Confirm(Command):
    number: int

    def text(self) -> str:
        return f"confirm {self.number}"

    def refuses(self, desk: Desk, caller: str) -> None:
        proposal = desk.proposal(self.number)
        refuse_if(proposal.state != "open", "ProposalClosed")
        refuse_if(proposal.officer == caller, "OwnProposal")
        desk.force.refuses(proposal.entries)

    def applied(self, desk: Desk, caller: str) -> Reply:
        proposal = desk.proposal(self.number)
        counts = {**desk.adds(proposal.entries), "passed": proposal.entries.passed}
        desk.force = desk.force.after(proposal.entries)
        proposal.state = "confirmed"
        in_order = [counts[one] for one in ("digests", "certificates", "components", "passed")]
        return replied("confirmed", self.number, *in_order, proposal=self.number, **counts)


@dataclass
class Drop(Command):
    number: int

    def text(self) -> str:
        return f"drop {self.number}"

    def refuses(self, desk: Desk, caller: str) -> None:
        refuse_if(desk.proposal(self.number).state != "open", "ProposalClosed")

    def applied(self, desk: Desk, caller: str) -> Reply:
        desk.proposal(self.number).state = "dropped"
        return replied("dropped", self.number, proposal=self.number)


@dataclass
class Explain(Command):
    """It leaves its minute alone."""

    number: int
    reason: str

    def text(self) -> str:
        return f"explain {self.number} {self.reason}"

    def refuses(self, desk: Desk, caller: str) -> None:
        desk.proposal(self.number)

    def applied(self, desk: Desk, caller: str) -> Reply:
        return replied("explained", self.number, proposal=self.number)
