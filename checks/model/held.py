"""What is in force at a desk, and what it holds."""
from __future__ import annotations

from dataclasses import dataclass, field
from typing import Any, Iterable, NamedTuple, Optional

from checks.model.facts import Components, Facts, listed, refuse_if
from checks.support.images import SHA256_KIND, X509_SHA256_KIND, sha256, signature_list

# ---- what is in force


class Entries(NamedTuple):
    """What a proposal names, and of which kind it is."""

    kind: str
    digests: tuple[str, ...] = ()
    certificates: tuple[str, ...] = ()
    components: Components = ()
    stamp: Optional[int] = None
    passed: int = 0

    def told(self) -> str:
        """The text of the import that names the same."""
        components = [f"{generation}:{name}" for name, generation in self.components]
        lists = " ".join(map(listed, (self.digests, self.certificates, components)))
        return f"import {self.stamp or 0} {self.passed} {lists}"

    def tag(self) -> str:
        """The tag of a proposal of these."""
        return sha256(self.told().encode())


Verdict = dict[str, Any]
ALLOWED: Verdict = {"verdict": "allowed"}


@dataclass
class Force:
    """The revoked digests and certificates, and the level."""

    digests: set[str] = field(default_factory=set)
    certificates: set[str] = field(default_factory=set)
    level: dict[str, int] = field(default_factory=dict)
    stamp: int = 2021030218

    def raised(self, entries: Entries) -> set[str]:
        """The names that the entries raise."""
        return {
            name for name, generation in entries.components if generation > self.level.get(name, 0)
        }

    def after(self, entries: Entries) -> "Force":
        """What is in force once the entries are."""
        level = dict(self.level)
        for name, generation in entries.components:
            level[name] = max(generation, level.get(name, 0))
        stamp = entries.stamp if self.raised(entries) and entries.stamp is not None else self.stamp
        return Force(
            self.digests | {*entries.digests}, self.certificates | {*entries.certificates}, level,
            stamp
        )

    def refuses(self, entries: Entries) -> None:
        """Refuses entries that can't be put into force."""
        if entries.kind == "digest":
            refuse_if(entries.digests[0] in self.digests, "AlreadyRevoked")
        elif entries.kind == "certificate":
            refuse_if(entries.certificates[0] in self.certificates, "AlreadyRevoked")
        elif entries.kind == "level":
            refuse_if(entries.components[0][0] == "sbat" or not self.raised(entries), "NotHigher")
        is_later = entries.stamp is not None and entries.stamp > self.stamp
        refuse_if(bool(self.raised(entries)) and not is_later, "StampNotLater")

    def below(self, facts: Facts) -> Optional[Verdict]:
        """The first component below the level."""
        for name, generation in facts.components:
            needed = 1 if name == "sbat" else self.level.get(name, 0)
            if generation < needed:
                return {
                    "component": name, "generation": generation, "level": needed, "verdict": "sbat"
                }
        return None

    def bars_by_dbx(self, facts: Facts) -> Optional[Verdict]:
        if {facts.digest, facts.signing} & self.digests:
            return {"verdict": "dbx-digest"}
        return {"verdict": "dbx-certificate"} if self.certificates & {*facts.carried} else None

    def bars(self, facts: Facts) -> Optional[Verdict]:
        """The first rule that bars the image."""
        return self.bars_by_dbx(facts) or self.below(facts)

    def dbx(self) -> bytes:
        return self.digest_list() + certificate_list(self.certificates)

    def digest_list(self) -> bytes:
        return signature_list(SHA256_KIND, [bytes.fromhex(one) for one in sorted(self.digests)])

    def level_text(self) -> str:
        return f"sbat,1,{self.stamp}\n" + "".join(
            f"{name},{generation}\n" for name, generation in sorted(self.level.items())
        )


def certificate_list(digests: Iterable[str]) -> bytes:
    return signature_list(
        X509_SHA256_KIND, [bytes.fromhex(one) + bytes(16) for one in sorted(digests)]
    )


# ---- what the desk holds


class Person(NamedTuple):
    role: str
    token: str


class Minute(NamedTuple):
    """An accepted call: the texts of its command and of its reply, and that reply as JSON."""

    caller: str
    key: str
    text: str
    reply: str
    json: dict[str, Any]


@dataclass
class Request:
    """A request to sign. A vote has its reviewer, the vote and the note."""

    number: int
    submitter: str
    title: str
    facts: Facts
    votes: list[tuple[str, str, str]] = field(default_factory=list)
    withdrawn: bool = False
    returned: Optional[Facts] = None

    def state(self) -> str:
        if self.returned is not None:
            return "signed"
        if self.withdrawn:
            return "withdrawn"
        votes = [vote for _, vote, _ in self.votes]
        if "no" in votes:
            return "rejected"
        return "approved" if votes.count("yes") >= 2 else "open"

    def has(self, digest: str) -> bool:
        """Whether a search by the digest finds it."""
        facts, returned = self.facts, self.returned
        images = [facts] if returned is None else [facts, returned]
        names = [name for one in images for name in (one.file, one.digest)]
        return digest in (*names, facts.signing, *facts.carried)

    def shown(self) -> dict[str, Any]:
        votes = [
            {"note": note, "reviewer": reviewer, "vote": vote}
            for reviewer, vote, note in sorted(self.votes)
        ]
        returned = None if self.returned is None else self.returned.file
        more = {
            "number": self.number, "returned": returned, "state": self.state(),
            "submitter": self.submitter, "title": self.title
        }
        return {**self.facts.shown(), **more, "votes": votes}


class Image(NamedTuple):
    """An image that passed through the desk: `submitted` or `returned`, of this request."""

    request: Request
    file: str
    facts: Facts


@dataclass
class Proposal:
    number: int
    officer: str
    entries: Entries
    state: str = "open"

    def row(self) -> dict[str, Any]:
        names = self.entries
        counts = {
            "certificates": len(names.certificates), "components": len(names.components),
            "digests": len(names.digests)
        }
        return {**counts, "number": self.number, "officer": self.officer, "state": self.state}

    def shown(self) -> dict[str, Any]:
        names = self.entries
        return {
            "certificates": [*names.certificates],
            "components": [[*one] for one in names.components], "digests": [*names.digests],
            "kind": names.kind, "number": self.number, "officer": self.officer,
            "passed": names.passed, "stamp": names.stamp, "state": self.state, "tag": names.tag()
        }


Reply = tuple[str, dict[str, Any]]
