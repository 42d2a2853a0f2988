"""What makes an entry or a level doubtful: slips that the desk takes, and that then revoke nothing,
or too much."""
from __future__ import annotations

import datetime
import hashlib
from collections import Counter
from dataclasses import dataclass, field
from typing import Any, Mapping, Optional, Sequence

from .answers import Request, having, shaped, titled
from .certificates import Certificate, certificate_in
from .der import BadDer, tbs_digest
from .described import LIMITS
from .desk import Desk
from .journal import now
from .questions import issued_question, unknown_words
from .standing import Standing, level_of, lists_of
from .words import printable


@dataclass
class Known:
    """What is known of some digests and certificates: what they are, and what makes them
    doubtful. `names` are those of components, `sought` the texts of requests that may still tell
    something."""

    digests: set[str]
    certificates: set[str]
    # Entries that would do nothing, that are in dbx, and that are one of an image's two digests.
    doubts: list[str] = field(default_factory=list)
    revoked: list[str] = field(default_factory=list)
    halves: list[str] = field(default_factory=list)
    names: set[str] = field(default_factory=set)
    sought: set[str] = field(default_factory=set)
    about: dict[str, str] = field(default_factory=dict)
    told: Counter[str] = field(default_factory=Counter)
    now: Standing = field(default_factory=Standing)

    def tell(self, digest: str, text: str) -> None:
        """Adds what is known of a digest or a certificate; of many facts the first three."""
        self.told[digest] += 1
        if self.told[digest] <= 4:
            self.about[digest] = "; ".join(
                filter(None, [self.about.get(digest), text if self.told[digest] < 4 else ".."]))

    def request(self, one: Request) -> None:
        names = {str(name) for name, _ in one.components}
        self.names |= names
        self.sought -= names
        both = {one.digest, one.signing}
        if len(both & self.digests) == 1 and len(both) == 2:
            self.halves.append(
                f"The image of {titled(one)} has two digests, {one.digest} and {one.signing}: a"
                " signature may hold the other one. Revoke both.")
        for whole, which in ((one.file, "file"), (one.returned, "returned file")):
            if whole in self.digests or whole in self.certificates:
                self.doubts.append(
                    f"{whole} is the SHA-256 of the whole {which} of {titled(one)}, as sha256sum"
                    f" gives it. It bars nothing: the image's digest is {one.digest}.")
        for digest in both:
            if digest in self.digests:
                self.tell(digest, titled(one))
            if digest in self.certificates:
                self.doubts.append(
                    f"{digest} is the digest of the image of {titled(one)}, and no certificate.")
        for certificate in one.carried:
            if certificate in self.digests:
                self.doubts.append(
                    f"{certificate} is a certificate, which the image of {titled(one)} carries, and"
                    " no image's digest.")
            if certificate in self.certificates:
                self.tell(certificate, f"carried by {titled(one)}")
                if self.told[certificate] > 3 and certificate not in self.digests:
                    self.sought.discard(certificate)

    def listed(self, body: bytes) -> None:
        """A listed certificate. The desk takes more than what is one."""
        try:
            tbs = tbs_digest(body)
        except BadDer:
            return
        fingerprint, certificate = hashlib.sha256(body).hexdigest(), certificate_in(body)
        subject = certificate.subject if certificate else "(not readable)"
        if fingerprint in self.digests or fingerprint in self.certificates:
            self.doubts.append(
                f"{fingerprint} is the fingerprint of the listed certificate {subject}."
                f" It bars nothing: the SHA-256 of its TBSCertificate is {tbs}.")
        if tbs in self.digests:
            self.doubts.append(f"{tbs} is the listed certificate {subject}, and no image's digest.")
        if tbs in self.certificates:
            words = f"listed: {certificate_words(certificate) if certificate else subject}"
            self.about[tbs] = "; ".join(filter(None, [words, self.about.get(tbs)]))

    def issuers(self, given: Mapping[str, Certificate]) -> None:
        """The certificates as issuers of listed ones: those that are listed, or `given`."""
        for tbs in sorted(self.certificates):
            one = given.get(tbs) or self.now.certificates.get(tbs)
            doubt = issued_question(one, self.now, self.certificates) if one else None
            self.doubts += [doubt] if doubt else []
            if tbs not in self.now.certificates:
                words = certificate_words(one) if one else unknown_words(self.now)
                self.about[tbs] = "; ".join(filter(None, [words, self.about.get(tbs)]))

    def entry(self, name: str, body: bytes, where: str) -> None:
        """An entry of the desk's own lists."""
        named = {"sha256": self.digests, "x509_sha256": self.certificates}.get(name, set())
        if where == "dbx" and body[:32].hex() in named:
            self.revoked.append(f"{body[:32].hex()} is revoked already.")
        if where == "db" and name == "sha256" and body.hex() in self.digests:
            self.tell(body.hex(), "listed")
        if name == "x509":
            self.listed(body)
        elif name == "x509_sha256" and body[:32].hex() in self.digests:
            self.doubts.append(
                f"{body[:32].hex()} is a certificate in {where}, and no image's digest.")
        elif name == "sha256" and body.hex() in self.certificates:
            self.doubts.append(f"{body.hex()} is an image's digest in {where}, and no certificate.")


def certificate_words(one: Certificate) -> str:
    """Whose it is, and whether it says that it is a CA's."""
    return one.subject + (", a CA's" if one.authority else "")


def look(desk: Desk, found: Known) -> None:
    """Gives each request that has a text that is sought: of a digest or a certificate by the desk's
    search, and of the list as far as a name goes that isn't found before."""
    digests, given = found.digests | found.certificates, set[int]()
    searched = having(desk, digests)
    if searched:
        for one in searched.requests:
            given.add(one.number)
            found.request(one)
        found.sought -= digests - searched.cut
    for value in desk.listed("/requests", texts=found.sought):
        if value.get("number") not in given:
            found.request(shaped(Request, value))


def known(desk: Desk, digests: Sequence[str], certificates: Sequence[str],
          components: Sequence[Sequence[Any]] = (),
          given: Optional[Mapping[str, Certificate]] = None) -> Known:
    """Looks for them among the desk's requests and lists, for components only where the level has
    none of their name; of some certificates there is all."""
    found = Known(set(digests), set(certificates))
    found.now.level = level_of(desk)[1] if components else {}
    found.sought = found.digests | found.certificates | {
        name for name, _ in components if name not in found.now.level}
    look(desk, found)
    if found.digests or found.certificates:
        for name in ("db", "dbx"):
            for kind, entry in lists_of(desk, name):
                found.entry(kind, entry[16:], name)
                found.now.take(name, kind, entry)
        found.issuers(given or {})
    found.doubts = list(dict.fromkeys(found.doubts))
    found.halves = list(dict.fromkeys(found.halves))
    return found


def stamp_doubt(stamp: int) -> Optional[str]:
    """Whether a stamp is a day of the last or of the next year, with two digits behind it."""
    text = str(stamp)
    try:
        day = datetime.datetime.strptime(text[:8], "%Y%m%d").date()
    except ValueError:
        return (
            f"the stamp {text} doesn't begin with a date. Stamps only rise, and nothing takes one"
            " back.")
    days = (day - now().date()).days
    if abs(days) > 366:
        return (f"the stamp {text} is of {day}, more than a year {'ahead' if days > 0 else 'ago'}."
                " Stamps only rise, and nothing takes one back.")
    return None


def level_doubts(components: Sequence[Sequence[Any]], stamp: Optional[int], current: dict[str, int],
                 names: set[str]) -> list[str]:
    """Generations and stamps that look like a slip of the hand; `names` are those of the
    components of known images."""
    found = []
    for name, generation in components:
        present = current.get(name, 0)
        if name == "sbat":
            found.append("The generation of sbat itself stays at 1.")
        elif name not in current and name not in names:
            found.append(
                f"Neither the level nor a known image has a component {printable(name)}. Is it"
                " spelt right?")
        if generation > LIMITS["shim_generation"]:
            found.append(
                f"{printable(name)} {generation}: shim compares 16 bits, so no generation above"
                f" {LIMITS['shim_generation']:,} has a meaning.")
        elif generation >= present + LIMITS["unusual_rise"]:
            found.append(
                f"{printable(name)} rises from {present or 'none'} to {generation}: every image"
                " with a lower one is barred for good.")
    doubt = stamp_doubt(stamp) if stamp and components else None
    return found + ([doubt] if doubt else [])
