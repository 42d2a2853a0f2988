"""What the desk answers, by its keys (docs/FORMATS.md), and what an image's facts are."""
from __future__ import annotations

import hashlib
from dataclasses import dataclass, fields
from typing import Any, Collection, Optional, TypeVar

from .desk import PART, Desk
from .faults import no_desks
from .words import HEX, KINDS, printable

T = TypeVar("T")
# So many digests at most are searched for: for each the desk looks through all requests, and for
# some thirty that takes as long as giving the list.
MOST = 20


@dataclass(frozen=True)
class Me:
    """Who the desk says that the caller is."""

    name: str
    role: str


@dataclass(frozen=True)
class Request:
    """A request, as docs/FORMATS.md has it."""

    number: int
    state: str
    submitter: str
    title: str
    length: int
    file: str
    digest: str
    signing: str
    gap: int
    carried: list[str]
    components: list[list[Any]]
    returned: Optional[str]
    votes: list[dict[str, str]]


@dataclass(frozen=True)
class Having:
    """The requests that have one of some digests, ascending by number; and those of these digests
    that further ones may have."""

    requests: list[Request]
    cut: set[str]


@dataclass(frozen=True)
class Counts:
    """A proposal in the list of them: how many entries of each kind it names."""

    number: int
    state: str
    officer: str
    digests: int
    certificates: int
    components: int

    def named(self) -> dict[str, int]:
        return {name: getattr(self, name) for name in KINDS}


@dataclass(frozen=True)
class Proposal:
    """A proposal with all that it names."""

    number: int
    state: str
    officer: str
    kind: str
    digests: list[str]
    certificates: list[str]
    components: list[list[Any]]
    stamp: Optional[int]
    passed: int

    def tag(self) -> str:
        """The tag that names what it would put into force: the SHA-256 of the text of the import of
        the same entries (docs/FORMATS.md)."""
        raised = [f"{generation}:{name}" for name, generation in self.components]
        lists = [",".join(one) or "-" for one in (self.digests, self.certificates, raised)]
        text = " ".join(("import", str(self.stamp or 0), str(self.passed), *lists))
        return hashlib.sha256(text.encode()).hexdigest()


@dataclass(frozen=True)
class Impact:
    """What a Confirm would put into force, and which known images it would bar."""

    proposal: int
    adds: dict[str, int]
    bars: list[dict[str, Any]]
    dbx: int


def shaped(form: type[T], value: Any) -> T:
    """An answer's object by its keys."""
    try:
        return form(**{one.name: value[one.name] for one in fields(form)})
    except (KeyError, TypeError):
        raise no_desks("its JSON has another form") from None


def said_number(reply: dict[str, Any], name: str) -> int:
    found = reply.get(name)
    if not isinstance(found, int):
        raise no_desks(f"it names no {name}")
    return found


def titled(request: Request) -> str:
    return f"request {request.number} ({printable(request.state)}, {printable(request.title)})"


def me_of(desk: Desk) -> Me:
    """Who calls."""
    return shaped(Me, desk.get("/me").object())


def request_of(desk: Desk, number: int) -> Request:
    return shaped(Request, desk.get(f"/requests/{number}").object())


def having(desk: Desk, digests: Collection[str]) -> Optional[Having]:
    """The requests that have one of these; nothing where the list is to be read: for many, and for
    what is no digest."""
    if len(digests) > MOST or not all(map(HEX.match, digests)):
        return None
    found: dict[int, Request] = {}
    cut = set()
    for digest in sorted(digests):
        some = desk.requests_with(digest)
        if some is None:
            return None
        found |= {value["number"]: shaped(Request, value) for value in some}
        cut |= {digest} if len(some) >= PART else set()
    return Having([found[number] for number in sorted(found)], cut)


def proposal_in(value: Any) -> Proposal:
    """A proposal, whose tag is that of what it names."""
    one = shaped(Proposal, value)
    if value.get("tag", one.tag()) != one.tag():
        raise no_desks(f"the tag of proposal {one.number} isn't that of what it names")
    return one
