"""Requests of people at a desk, and every byte of the responses that are due."""
from __future__ import annotations

from typing import NamedTuple, Sequence

from checks.support.images import PLAIN, authenticode, sha256, signing, with_text
from checks.support.messages import Field, got, ok, posted, refused, request, said, token

Shown = dict[str, object]
Component = tuple[str, int]
# A reviewer, a vote and a note.
Vote = tuple[str, str, str]


class Step(NamedTuple):
    """A request, the response that is due, and whether the desk accepts a command by it for the
    first time."""

    given: bytes
    due: bytes
    accepted: bool = False


def takes(name: str, key: str, path: str, body: bytes, reply: Shown, *fields: Field) -> Step:
    """The desk accepts this person's command with this reply."""
    return Step(posted(name, key, path, body, *fields), ok(reply), True)


def again(name: str, key: str, path: str, body: bytes, reply: Shown, *fields: Field) -> Step:
    """A key that was given before, with the same command, has the same reply."""
    return takes(name, key, path, body, reply, *fields)._replace(accepted=False)


def refuses(
    number: int, name: str, key: str, path: str, body: bytes, *fields: Field, at: int | None = None
) -> Step:
    return Step(posted(name, key, path, body, *fields), refused(number, at))


def reads(name: str, path: str, due: bytes) -> Step:
    return Step(got(name, path), due)


def judges(name: str, image: bytes, verdict: Shown) -> Step:
    return Step(posted(name, "unused", "/verdict", image), ok(verdict))


def tells(
    name: str, image: bytes, carried: Sequence[str] = (), components: Sequence[Component] = ()
) -> Step:
    return Step(posted(name, "unused", "/facts", image), ok(facts(image, carried, components)))


def too_large(name: str, key: str, path: str, size: int, *fields: Field) -> Step:
    """A body of so many bytes is refused before it has come: the first of it are sent."""
    length = ("Content-Length", str(size))
    head = request("POST", path, [("Desk-Token", token(name)), ("Desk-Key", key), *fields, length])
    return Step(head + bytes(100_000), refused(56))


# ---- commands


def submits(name: str, key: str, image: bytes, title: str, number: int) -> Step:
    return takes(
        name, key, "/requests", image, {"reply": "submitted", "request": number},
        ("Desk-Title", title)
    )


def vote(ballot: str, note: str = "") -> bytes:
    return said({"note": note, "vote": ballot})


def reviews(name: str, key: str, number: int, ballot: str, state: str) -> Step:
    reply = {"reply": "reviewed", "request": number, "state": state}
    return takes(name, key, f"/requests/{number}/review", vote(ballot), reply)


def returns(name: str, key: str, number: int, image: bytes) -> Step:
    return takes(
        name, key, f"/requests/{number}/return", image, {"reply": "returned", "request": number}
    )


def named(hexadecimal: str, **more: str) -> bytes:
    return said({"digest": hexadecimal, **more})


def lists(name: str, key: str, image_digest: str) -> Step:
    return takes(name, key, "/db/digests", named(image_digest), {"reply": "listed"})


def raising(component: str, generation: int, stamp: int) -> bytes:
    return said({"component": component, "generation": generation, "stamp": stamp})


def proposes(name: str, key: str, path: str, body: bytes, number: int, *fields: Field) -> Step:
    return takes(name, key, path, body, {"proposal": number, "reply": "proposed"}, *fields)


def confirms(
    name: str, key: str, number: int, digests: int, certificates: int, components: int, passed: int
) -> Step:
    counts = {
        "certificates": certificates, "components": components, "digests": digests, "passed": passed
    }
    return takes(
        name, key, f"/proposals/{number}/confirm", b"",
        {**counts, "proposal": number, "reply": "confirmed"}
    )


def drops(name: str, key: str, number: int) -> Step:
    return takes(
        name, key, f"/proposals/{number}/drop", b"", {"proposal": number, "reply": "dropped"}
    )


def reason(text: str) -> bytes:
    return said({"text": text})


def explains(name: str, key: str, number: int, text: str) -> Step:
    return takes(
        name, key, f"/proposals/{number}/explain", reason(text),
        {"proposal": number, "reply": "explained"}
    )


def closes(number: int, what: str, name: str, key: str, proposal: int | str) -> Step:
    """A Confirm or a Drop that is refused."""
    return refuses(number, name, key, f"/proposals/{proposal}/{what}", b"")


# ---- what is shown


def facts(
    image: bytes, carried: Sequence[str] = (), components: Sequence[Component] = ()
) -> Shown:
    return {
        "carried": [*carried], "components": [[*one] for one in components],
        "digest": authenticode(image), "file": sha256(image), "gap": 0, "length": len(image),
        "signing": signing(image)
    }


def shown(
    number: int, submitter: str, title: str, state: str, votes: Sequence[Vote],
    returned: str | None = None, image: bytes = PLAIN,
) -> Shown:
    """The request of an image without a table, with its votes (reviewer, vote, note) ascending by
    reviewer."""
    return {
        **facts(image), "number": number, "returned": returned, "state": state,
        "submitter": submitter, "title": title,
        "votes": [
            {"note": note, "reviewer": reviewer, "vote": ballot} for reviewer, ballot, note in votes
        ]
    }


def proposal(
    number: int, officer: str, state: str, digests: int = 0, certificates: int = 0,
    components: int = 0
) -> Shown:
    counts = {"certificates": certificates, "components": components, "digests": digests}
    return {**counts, "number": number, "officer": officer, "state": state}


def tag_of(
    digests: Sequence[str], certificates: Sequence[str], components: Sequence[Component],
    stamp: int | None, passed: int,
) -> str:
    """A proposal's tag: the SHA-256 of the text of the import that names the same."""
    rows = [f"{generation}:{name}" for name, generation in components]
    parts = [",".join(one) or "-" for one in (digests, certificates, rows)]
    return sha256(" ".join(["import", str(stamp or 0), str(passed), *parts]).encode())


def if_match(tag: str) -> Field:
    """The field of a command that is about what has this tag."""
    return ("If-Match", f'"{tag}"')


def whole(
    number: int, officer: str, kind: str, state: str, digests: Sequence[str] = (),
    certificates: Sequence[str] = (), components: Sequence[Component] = (),
    stamp: int | None = None, passed: int = 0,
) -> Shown:
    """A proposal with all that it names."""
    return {
        "certificates": [*certificates], "components": [[*one] for one in components],
        "digests": [*digests], "kind": kind, "number": number, "officer": officer, "passed": passed,
        "stamp": stamp, "state": state,
        "tag": tag_of(digests, certificates, components, stamp, passed),
    }


def bars(
    number: int, file: str, state: str, submitter: str, title: str, allowed: bool, **by: object
) -> Shown:
    """An image that a Confirm would bar, by the rule in the form of a verdict."""
    return {
        "allowed": allowed, "by": by, "file": file, "request": number, "state": state,
        "submitter": submitter, "title": title
    }


def impact(
    number: int, barred: Sequence[Shown], dbx: int, digests: int = 0, certificates: int = 0,
    components: int = 0,
) -> Shown:
    """What a Confirm of the proposal would do."""
    adds = {"certificates": certificates, "components": components, "digests": digests}
    return {"adds": adds, "bars": [*barred], "dbx": dbx, "proposal": number}


def minutes(first: int, *calls: tuple[str, str, str, str]) -> str:
    """Lines of the minutes from this number on: caller, key, text and reply of each."""
    return "".join("\t".join((str(number), *one)) + "\n" for number, one in enumerate(calls, first))


def grub(generation: int) -> bytes:
    return with_text(PLAIN, f"sbat,1,a,b,1,u\ngrub,{generation},a,b,1,u\n".encode())
