"""What stands at the desk today, by its own exports: what db lists, what dbx revokes, the level."""
from __future__ import annotations

from dataclasses import dataclass, field
from typing import Any, Optional, Sequence, Union

from .answers import Request
from .certificates import Certificate, certificate_in
from .der import BadDer, tbs_digest
from .desk import Desk
from .facts import Facts
from .faults import Unreadable
from .http import BYTES, TEXT, not_a_desk
from .sbat import level_read
from .siglists import entries_in, guid


@dataclass
class Standing:
    """The desk's lists. A listed certificate has its body, which need not read as one."""

    digests: set[str] = field(default_factory=set)
    certificates: dict[str, Optional[Certificate]] = field(default_factory=dict)
    revoked_digests: set[str] = field(default_factory=set)
    revoked_certificates: set[str] = field(default_factory=set)
    level: dict[str, int] = field(default_factory=dict)
    stamp: int = 0
    # Those of the lists' entries: what the desk writes has its own.
    owners: set[str] = field(default_factory=set)

    def subject(self, tbs: str) -> str:
        found = self.certificates.get(tbs)
        return f" ({found.subject})" if found else ""

    def called(self, entry: str) -> str:
        """A listed entry's name in a sentence: a certificate's, or a digest's first 8 digits."""
        found = self.certificates.get(entry)
        return found.called if found else entry[:8]

    def named(self, name: bytes) -> list[Certificate]:
        """The listed certificates of this name, which is in DER."""
        return [one for one in self.certificates.values() if one and one.of == name]

    def issued_by(self, one: Certificate) -> list[Certificate]:
        """The listed certificates that it issued, by its name; none is self-issued."""
        return [each for each in self.certificates.values()
                if each and each.by == one.of and each.of != each.by]

    def take(self, where: str, kind: str, entry: bytes) -> None:
        """An entry of db or of dbx."""
        self.owners.add(guid(entry[:16]))
        if where == "dbx":
            named = self.revoked_digests if kind == "sha256" else self.revoked_certificates
            named.add(entry[16:48].hex())
        elif kind == "x509":
            self.take_listed(entry[16:])
        elif kind == "sha256":
            self.digests.add(entry[16:].hex())

    def take_listed(self, body: bytes) -> None:
        """A listed certificate. The desk takes more than what is one."""
        try:
            self.certificates[tbs_digest(body)] = certificate_in(body)
        except BadDer:
            return


def lists_of(desk: Desk, name: str) -> list[tuple[str, bytes]]:
    """The entries of db or dbx, each with its type."""
    answer = desk.get(f"/{name}").of_type(BYTES)
    try:
        return entries_in(answer.data())
    except Unreadable:
        raise not_a_desk(answer) from None


def level_of(desk: Desk) -> tuple[int, dict[str, int]]:
    return level_read(desk.get("/level").of_type(TEXT).data().decode("utf-8", "replace"))


def revoked_of(desk: Desk) -> Standing:
    """What bars images today, without what is listed."""
    stamp, level = level_of(desk)
    found = Standing(level=level, stamp=stamp)
    for kind, entry in lists_of(desk, "dbx"):
        found.take("dbx", kind, entry)
    return found


def standing_of(desk: Desk) -> Standing:
    found = revoked_of(desk)
    for kind, entry in lists_of(desk, "db"):
        found.take("db", kind, entry)
    return found


# Where an entry stands, and what it says.
Entry = tuple[str, str]


def digest_entries(now: Standing, facts: Facts) -> list[Entry]:
    found = []
    for digest, name in ((facts.digest, "digest"), (facts.signing, "digest in a signature")):
        if name == "digest" or digest != facts.digest:
            if digest in now.revoked_digests:
                found.append(("dbx", f"its {name} is revoked: {digest}"))
            if digest in now.digests:
                found.append(("db", f"its {name} is listed: {digest}"))
    return found


def certificate_entries(now: Standing, carried: Sequence[str]) -> list[Entry]:
    found = []
    for tbs in carried:
        words = f"a certificate that it carries is {{}}: {tbs}{now.subject(tbs)}"
        if tbs in now.revoked_certificates:
            found.append(("dbx", words.format("revoked")))
        if tbs in now.certificates:
            found.append(("db", words.format("listed")))
    return found


def lows_of(level: dict[str, int], components: Sequence[Sequence[Any]]) -> list[dict[str, Any]]:
    """The components that are below the level, each as the rule that bars by it."""
    return [{"verdict": "sbat", "component": name, "generation": generation, "level": level[name]}
            for name, generation in components if generation < level.get(name, 0)]


def barred_by(now: Standing, one: Union[Facts, Request]) -> Optional[dict[str, Any]]:
    """The rule that bars an image today: those of a verdict but for the lists."""
    if now.revoked_digests & {one.digest, one.signing}:
        return {"verdict": "dbx-digest"}
    if now.revoked_certificates.intersection(one.carried):
        return {"verdict": "dbx-certificate"}
    return next(iter(lows_of(now.level, one.components)), None)


def level_entries(now: Standing, facts: Facts) -> list[Entry]:
    found = []
    for name, generation in facts.components:
        needs = now.level.get(name)
        if needs is not None and generation < needs:
            found.append(("level", f"{name} {generation} is below its {needs}: barred"))
        elif needs is not None:
            found.append(("level", f"{name} {generation} isn't below its {needs}"))
    return found


def entries_of(now: Standing, facts: Facts) -> list[Entry]:
    """Each entry of dbx, of the level and of db that speaks of an image today."""
    found = digest_entries(now, facts) + certificate_entries(now, facts.carried)
    found += level_entries(now, facts)
    order = ("dbx", "level", "db")
    return sorted(found, key=lambda entry: order.index(entry[0]))
