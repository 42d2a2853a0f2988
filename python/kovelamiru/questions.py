"""What is asked before a submission, a vote, a withdrawal, a return, a drop, an unlisting or a
proposal, in the words of page/wire/questions.json."""
from __future__ import annotations

from typing import Collection, Optional, Sequence

from .answers import Request
from .certificates import Certificate
from .described import WORDS, described
from .pkcs7 import Signature
from .standing import Standing, barred_by
from .words import counted, printable, some_of

QUESTIONS: dict[str, dict[str, str]] = described("questions")


def rule_words(rule: dict[str, object], would: bool = False) -> str:
    """What bars an image, or why it isn't allowed: as it is, or as it would be behind a Confirm."""
    parts = {"is": "would be", "requires": "would require"} if would else {
        "is": "is", "requires": "requires"}
    verdict = str(rule.get("verdict"))
    return str(WORDS["rules"].get(verdict, verdict)).format_map({**rule, **parts})


def plain_question(name: str, number: int) -> list[str]:
    """Before a vote of no, a withdrawal or a drop: `name` is one of these."""
    return [QUESTIONS[name]["plain"].format(number=number)]


def twice_question(own: Sequence[Request], file: str,
                   digests: Collection[str] = ()) -> Optional[str]:
    """Before a file that the same person submitted before, or whose image (by its `digests`), as a
    request that was open or approved, or that was signed."""
    lasting = [one for one in reversed(own) if one.state in ("open", "approved", "signed")]
    twice = [("twice", one) for one in lasting if one.file == file]
    twice += [("image", one) for one in lasting if {one.digest, one.signing}.intersection(digests)]
    for name, one in twice[:1]:
        return QUESTIONS["submit"][name].format(number=one.number, state=one.state)
    return None


def several_question(vote: str, each: Sequence[tuple[int, Sequence[str]]]) -> tuple[list[str], str]:
    """Before one vote on several requests: what is asked of each of these numbers, a line each, and
    the question."""
    asks = QUESTIONS["several"]
    lines = [asks["each"].format(number=number, line=line) for number, all_of in each
             for line in all_of]
    return lines, asks["title"].format(vote=vote, count=counted(len(each), "request"))


def yes_question(one: Request, now: Standing, another: bool = False) -> dict[str, str]:
    """Before a yes: an image that is `barred`, `another` one that was looked at, and the `second`
    yes, which approves it. Nothing where nothing is asked."""
    barred: Optional[dict[str, object]] = barred_by(now, one)
    asks = {"barred": barred is not None, "another": another,
            "second": any(vote["vote"] == "yes" for vote in one.votes)}
    why = rule_words(barred) if barred else ""
    return {name: QUESTIONS["yes"][name].format(number=one.number, why=why)
            for name, holds in asks.items() if holds}


def carried_question(signatures: Sequence[Signature], now: Standing) -> Optional[str]:
    """Where a listed certificate is carried, and no signature says that it is by a listed one."""
    listed = {(one.by, one.serial) for one in now.certificates.values() if one}
    signers = [signer for one in signatures for signer in one.signers]
    carried = [each for one in signatures for each in one.certificates
               if each.tbs in now.certificates]
    if not carried or any((signer.issuer, signer.serial) in listed for signer in signers):
        return None
    words = "; ".join(signer.words for signer in signers) or "by nobody"
    return QUESTIONS["return"]["carried"].format(subject=carried[0].subject, signers=words)


def issued_question(one: Certificate, now: Standing, named: Collection[str]) -> Optional[str]:
    """Before a certificate is revoked: the listed ones that it issued, and that neither are revoked
    nor among the `named`."""
    left = [each for each in now.issued_by(one)
            if each.tbs not in named and each.tbs not in now.revoked_certificates]
    if not left:
        return None
    they, them = ("it", "it") if len(left) == 1 else ("they", "them")
    return QUESTIONS["propose"]["issued"].format(
        subject=one.called, count=counted(len(left), "listed certificate"),
        names=some_of([each.called for each in left]), they=they, them=them)


def unknown_words(now: Standing) -> str:
    """What is said of a certificate that is to be revoked and isn't at hand: who issued those that
    are listed. Nothing where nobody else did."""
    issuers = dict.fromkeys(one.issuer for one in now.certificates.values()
                            if one and one.of != one.by and one.tbs not in now.revoked_certificates)
    names = some_of(list(issuers), "; ")
    return QUESTIONS["propose"]["unknown"].format(names=names) if issuers else ""


def unlist_question(count: int, first: Sequence[Request]) -> list[str]:
    """Before an entry is taken off the list: how many signed files it alone makes allowed, and the
    first of their requests."""
    asks = QUESTIONS["unlist"]
    names = some_of([f"request {one.number} ({printable(one.title)})" for one in first],
                    count=count)
    loses = asks["loses"].format(count=f"{count:,}", names=names) if count else asks["none"]
    return [loses, asks["plain"]]
