"""The commands of single entries: list-certificate, list-digest, unlist, revoke, raise."""
from __future__ import annotations

import os
import re
from dataclasses import dataclass
from typing import Callable, Optional, Sequence

from ..answers import request_of, said_number
from ..certificates import Certificate
from ..csv import csv_of
from ..doubts import known, level_doubts
from ..faults import Causes, Refused, wrong
from ..files import ENTRY_LIMIT, IMAGE_LIMIT, read_file
from ..http import Call
from ..minutes import minute_lines
from ..pem import certificate_of
from ..pkcs7 import algorithm_doubts, signatures_of
from ..proposals import open_doubts
from ..questions import QUESTIONS, unlist_question
from ..signer import Beside, image_doubts, known_bodies, listing_doubts, shown
from ..standing import level_of, standing_of
from ..unlisting import losing
from ..words import HEX, SOME, counted, desk_json, printable
from .images import facts_of, facts_read_by
from .reasons import asked_reason, explaining, reason_of, sends_the_rest
from .run import Replies, Run, act


def hex_of(text: str, what: str) -> str:
    """64 hexadecimal digits, in lower case."""
    if HEX.match(text):
        return text.lower()
    digits = re.sub(r"[:\s-]", "", text)
    if re.fullmatch(r"[0-9A-Fa-f]{64}", digits):
        wrong(f"{printable(text)} has signs between its digits, as a certificate's fingerprint has",
              ("A fingerprint is the hash of the whole certificate. The desk takes that of its"
               " TBSCertificate: give the certificate's file."))
    if re.fullmatch(r"[0-9A-Fa-f]{40}", digits):
        wrong(f"{printable(text)} is a SHA-1, and a SHA-256 has 64 hexadecimal digits",
              f"It takes {what}.")
    if "file" in what:
        wrong(f"{printable(text)} is no file and no SHA-256", f"It takes {what}.")
    wrong(f"{printable(text)} is no SHA-256: {what} is 64 hexadecimal digits")


Given = dict[str, Certificate]


def certificate_named(run: Run, text: str, given: Optional[Given] = None) -> str:
    """The TBSCertificate's SHA-256 by a certificate's file, which is then `given`, or as it is."""
    if HEX.match(text) or not os.path.exists(text):
        return hex_of(text, "a certificate's file, or the SHA-256 of its TBSCertificate")
    found = certificate_of(text)
    if given is not None:
        given[found.tbs] = found
    run.terminal.note(f"{printable(text)}: {found.subject}\n"
                      f"  certificate {found.tbs} (the SHA-256 of its TBSCertificate)")
    return found.tbs


def named_body(digest: str, **more: str) -> bytes:
    return desk_json({"digest": digest, **more}).encode()


def digest_named(run: Run, text: str) -> str:
    """An image's digest by its file, or as it is given."""
    if HEX.match(text) or not os.path.exists(text):
        return hex_of(text, "an image's file, or its digest")
    facts = facts_of(run, text)
    if facts.digest != facts.signing:
        run.terminal.warn(
            f"! {printable(text)} has a length that is no multiple of 8: shim looks at its other"
            f" digest, {facts.signing}. The desk allows it by {facts.digest}.")
    return facts.digest


def beside(run: Run) -> Optional[Beside]:
    path = run.words.image
    if path is None:
        return None
    data = read_file(path, IMAGE_LIMIT, "an image has")
    carried = facts_read_by(run, path, data).carried
    found = [certificate for one in signatures_of(data) for certificate in one.certificates]
    return Beside(path, carried, found)


def list_certificate(run: Run) -> None:
    one = certificate_of(run.words.file)
    call = Call("POST", "/db/certificates", one.data, (), "listed", f"list-certificate {one.tbs}")

    def asks(taken: bool) -> None:
        image = None if taken else beside(run)
        for line in shown(one, image):
            run.terminal.warn(line)
        if taken:
            return
        now = standing_of(run.desk)
        doubts = listing_doubts(one, now, known_bodies(run.desk, now, image))
        run.terminal.confirm(
            doubts + (image_doubts(one, image) if image else []),
            f"At {run.desk.where} each image that carries it is then allowed. List it? Type yes:")

    act(run, [call], lambda _: run.terminal.say(f"certificate {one.tbs} listed"), asks)


def list_digest(run: Run) -> None:
    digest = digest_named(run, run.words.image)
    call = Call("POST", "/db/digests", named_body(digest), (), "listed", f"list-digest {digest}")

    def asks(taken: bool) -> None:
        found = known(run.desk, [digest], [])
        doubts = found.doubts + found.revoked
        if doubts and not taken:
            run.terminal.confirm(doubts, "List it all the same? Type yes:")

    act(run, [call], lambda _: run.terminal.say(f"digest {digest} listed"), asks)


def unlist(run: Run) -> None:
    kind, word = run.words.kind, run.words.hex
    digest = certificate_named(run, word) if kind == "certificate" else digest_named(run, word)
    call = Call("POST", "/db/unlist", named_body(digest, kind=kind), (), "unlisted",
                f"unlist {kind} {digest}")

    def asks(taken: bool) -> None:
        now = standing_of(run.desk) if run.terminal.can_ask and not taken else None
        if now and digest in (now.certificates if kind == "certificate" else now.digests):
            name = now.called(digest)
            numbers = losing(now, minute_lines(run.desk), digest)
            first = [request_of(run.desk, number) for number in numbers[:SOME]]
            run.terminal.ask(unlist_question(len(numbers), first),
                             QUESTIONS["unlist"]["typed"].format(name=name), name)

    act(run, [call], lambda _: run.terminal.say(f"{kind} {digest} unlisted"), asks)


def proposed(run: Run, calls: Sequence[Call], asks: Callable[[bool], None], causes: Causes) -> None:
    """Makes the proposals, prints their numbers, and explains each by the reason that was given."""
    reason = None if run.words.why is None else run.words.why and reason_of(run.words.why)

    def both(taken: bool) -> None:
        nonlocal reason
        asks(taken)
        reason = asked_reason(run) if reason is None else reason

    def show(replies: Replies) -> None:
        numbers = [said_number(reply, "proposal") for reply in replies]
        for number in numbers:
            run.terminal.say(f"proposal {number} proposed")
        if numbers:
            run.terminal.note(
                "Nothing is in force yet. Another officer looks at it and confirms it: deskctl"
                f" confirm {numbers[0]}")

    sends_the_rest(run, calls, show)
    act(run, calls, show, both, causes, explaining(run, lambda: reason or ""))


def csv_calls(digests: Sequence[str], certificates: Sequence[str],
              components: Sequence[tuple[str, int]], stamp: Optional[int], what: str) -> list[Call]:
    """Imports of these entries, each of as many as an import may have. All components are in the
    first: they have one stamp."""
    if len(components) > ENTRY_LIMIT:
        wrong(f"the file names {len(components):,} components, and a level has at most"
              f" {ENTRY_LIMIT:,}")
    left_d, left_c, raised = list(digests), list(certificates), list(components)
    calls: list[Call] = []
    while left_d or left_c or raised or not calls:
        room = ENTRY_LIMIT - len(raised)
        part_d, left_d = left_d[:room], left_d[room:]
        part_c, left_c = left_c[:room - len(part_d)], left_c[room - len(part_d):]
        fields_ = (("Desk-Stamp", str(stamp)),) if stamp and raised else ()
        calls.append(
            Call("POST", "/imports/csv", csv_of(part_d, part_c, raised), fields_, "proposed", what))
        raised = []
    return calls


@dataclass
class Named:
    """What a command revokes, each once, what is known here of the digests, and the certificates
    whose files were given."""

    digests: list[str]
    certificates: list[str]
    about: dict[str, str]
    given: Given


def revoked_named(run: Run) -> Named:
    """What the words of `revoke` name: of an image both digests."""
    digests: list[str] = []
    about: dict[str, str] = {}
    for path in run.words.images:
        if HEX.match(path) and not os.path.exists(path):
            wrong(f"{path} is no file",
                  "A digest is named by --digest HEX, a certificate by --certificate.")
        data = read_file(path, IMAGE_LIMIT, "an image has")
        facts, name = facts_read_by(run, path, data), printable(path)
        for doubt in algorithm_doubts(signatures_of(data)):
            run.terminal.warn(f"! {name}: {doubt}")
        digests += [facts.digest, facts.signing]
        about[facts.signing] = f"signing digest of {name}"
        about[facts.digest] = f"digest of {name}"
        if facts.gap:
            run.terminal.warn(
                f"! {name} has a gap of {facts.gap} bytes, where osslsigncode and fwupd have"
                " another digest than firmware.")
    digests += [hex_of(text, "an image's digest") for text in run.words.digest]
    given: Given = {}
    certificates = [certificate_named(run, text, given) for text in run.words.certificate]
    return Named(list(dict.fromkeys(digests)), list(dict.fromkeys(certificates)), about, given)


def revoke(run: Run) -> None:
    named = revoked_named(run)
    digests, certificates = named.digests, named.certificates
    if not digests and not certificates:
        wrong("nothing is named", "Name images, --digest HEX or --certificate FILE.")
    what = (
        f"revoke {counted(len(digests), 'digest')}, {counted(len(certificates), 'certificate')}:"
        f" {(digests + certificates)[0]}")
    if len(digests) + len(certificates) == 1:
        path = "/dbx/digests" if digests else "/dbx/certificates"
        calls = [Call("POST", path, named_body((digests + certificates)[0]), (), "proposed", what)]
    else:
        calls = csv_calls(digests, certificates, [], None, what)

    def asks(taken: bool) -> None:
        if taken:
            return
        found = known(run.desk, digests, certificates, given=named.given)
        for digest in digests + certificates:
            kind = "digest" if digest in digests else "certificate"
            words = "; ".join(filter(None, [named.about.get(digest), found.about.get(digest)]))
            run.terminal.note(
                f"  {kind} {digest}  {words or 'known to no request and no list'}")
        doubts = found.doubts + found.revoked + found.halves
        doubts += open_doubts(run.desk, digests, certificates, [])
        if doubts:
            run.terminal.confirm(doubts, "Propose it all the same? Type yes:")

    proposed(run, calls, asks, {})


def raise_level(run: Run) -> None:
    name, generation, stamp = run.words.component, run.words.generation, run.words.stamp
    body = desk_json({"component": name, "generation": generation, "stamp": stamp}).encode()
    call = Call("POST", "/level", body, (), "proposed", f"raise {name} {generation} {stamp}")

    def asks(taken: bool) -> None:
        current = level_of(run.desk)
        names = known(run.desk, [], [], [(name, generation)]).names
        doubts = level_doubts([(name, generation)], stamp, current[1], names)
        run.terminal.note(
            f"  {name} {current[1].get(name, 'none')} -> {generation}, stamp {current[0]} ->"
            f" {stamp}")
        if not taken:
            doubts += open_doubts(run.desk, [], [], [(name, generation)])
        if doubts and not taken:
            run.terminal.confirm(doubts, "Propose it all the same? Type yes:")

    def present(_: Refused) -> list[str]:
        current = level_of(run.desk)
        return [f"Now: {name} {current[1].get(name, 'none')}, stamp {current[0]}."]

    proposed(run, [call], asks, {31: present, 32: present})
