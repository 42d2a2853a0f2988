"""Why: each call of the minutes that speaks of an image, a certificate or a component, the requests
that these touch, and what stands now by them."""
from __future__ import annotations

from dataclasses import dataclass, field
from typing import Iterable, Optional

from .sentences import TABLE, Minute, Said, minute


@dataclass
class Names:
    """What is asked about. Of an image the requests are those that have it as a whole."""

    files: set[str] = field(default_factory=set)
    digests: set[str] = field(default_factory=set)
    certificates: set[str] = field(default_factory=set)
    components: set[str] = field(default_factory=set)
    # The components of an image, with their generations; none where no image is asked about.
    image: Optional[list[tuple[str, int]]] = None

    def all(self) -> set[str]:
        return self.files | self.digests | self.certificates | self.components

    def widen(self, found: Said) -> None:
        """Takes what the image of a file that is asked about has."""
        if self.files & set(found.alone("FILE")):
            self.image = found.components()
            self.digests.update(found.alone("DIGEST") + found.alone("SIGNING"))
            self.certificates.update(found.certificates())
            self.components.update(name for name, _ in found.components())

    def named(self, found: Said) -> list[tuple[str, str, int]]:
        """Those of them that a listing or a revocation names: kind, name, generation."""
        named = [("digest", name, 0) for name in found.digests() if name in self.digests]
        named += [("certificate", name, 0) for name in found.certificates()
                  if name in self.certificates]
        return named + [("component", name, generation) for name, generation in found.components()
                        if name in self.components]

    def touched(self, found: Said) -> str:
        """How the image of a request or of its returned file is touched; '' if it isn't."""
        if self.files & set(found.alone("FILE")):
            return str(TABLE["touched"]["file"])
        if self.digests & set(found.alone("DIGEST") + found.alone("SIGNING")):
            return str(TABLE["touched"]["image"])
        if self.image is not None:
            return ""
        if self.certificates & set(found.certificates()):
            return str(TABLE["touched"]["certificate"])
        for name, generation in found.components():
            if name in self.components:
                words = str(TABLE["touched"]["component"])
                return words.format(NAME=name, GENERATION=generation)
        return ""


@dataclass
class Touched:
    """A request whose image is touched."""

    number: int
    submitter: str
    title: str
    how: str
    state: str = "open"


# The calls that are read whatever they name: they speak of requests and proposals by number.
BY_NUMBER = ("confirm", "drop", "explain", "review", "withdraw", "return")


class Story:
    """The calls that speak of the names, the requests that these touch, and what stands now."""
    def __init__(self, names: Names):
        self.names = names
        self.calls: list[Minute] = []
        self.requests: dict[int, Touched] = {}
        # Lines of requests by the replies' numbers: one may be touched by its returned file alone.
        self.submitted: dict[str, str] = {}
        self.now: dict[tuple[str, str], str] = {}
        self.proposals: dict[str, list[tuple[str, str, int]]] = {}
        self.generations: dict[str, int] = {}
        # The call by which a name is listed or revoked, or its generation required.
        self.by: dict[tuple[str, str], int] = {}

    def take(self, call: Minute) -> None:
        if call.said and call.said.row.kind == "requests":
            self.request(call, call.said)
        elif call.said and call.said.row.kind != "people":
            self.entry(call, call.said)

    def request(self, call: Minute, found: Said) -> None:
        number, word = int(found.values["REQUEST"]), found.row.command[0]
        how = self.names.touched(found) if found.has("FILE") else ""
        if how and number not in self.requests:
            asked = minute(self.submitted.get(found.values["REQUEST"], ""))
            title = asked.said.values["TITLE"] if asked and asked.said else ""
            self.requests[number] = Touched(number, asked.caller if asked else "", title, how)
        if number in self.requests:
            states = {"withdraw": "withdrawn", "return": "signed"}
            self.requests[number].state = states.get(word, found.values.get("STATE", "open"))

    def entry(self, call: Minute, found: Said) -> None:
        word, number = found.row.command[0], found.values.get("PROPOSAL", "")
        by_number = word in ("confirm", "drop", "explain")
        named = self.proposals.get(number, []) if by_number else self.names.named(found)
        if not named:
            return
        self.calls.append(call)
        if word == "explain":
            return
        if by_number:
            self.now.pop((number, "open"), None)
        if word == "confirm" or (not number and found.row.kind == "revoking"):
            self.in_force(call, named, number)
        elif found.row.kind == "listing":
            self.stands(call, named[0], found.row.reply[0])
        elif word != "drop":
            self.proposals[number] = named
            text = TABLE["standing"]["open"].format(PROPOSAL=number, NAME=named[0][1],
                                                    CALL=call.number)
            self.now[(number, "open")] = text

    def in_force(self, call: Minute, named: list[tuple[str, str, int]], number: str) -> None:
        for one in named:
            kind, name, generation = one
            if kind != "component":
                if (name, "revoked") not in self.now:
                    self.stands(call, one, "revoked", number)
            elif generation > self.generations.get(name, 0):
                self.generations[name] = generation
                self.stands(call, one, "raised", number)

    def stands(self, call: Minute, one: tuple[str, str, int], how: str, number: str = "") -> None:
        kind, name, generation = one
        by = TABLE["standing"]["by"].format(PROPOSAL=number) if number else ""
        text = TABLE["standing"][how].format(KIND=kind, NAME=name, GENERATION=generation, BY=by,
                                             CALL=call.number)
        self.now[(name, "listed" if how == "unlisted" else how)] = text
        if how == "unlisted":
            self.by.pop((name, "listed"), None)
        else:
            self.by[(name, how)] = call.number

    def earliest(self, some: set[str], how: str) -> int:
        """The first of the calls by which these stand so, or 0."""
        return min((self.by[(one, how)] for one in some if (one, how) in self.by), default=0)

    def answer(self) -> str:
        """Whether the image that is asked about is barred or allowed, and by what; '' where none
        is."""
        names, answers = self.names, TABLE["answers"]
        if names.image is None:
            return ""
        sets = (("digest", names.digests), ("certificate", names.certificates))
        for kind, some in sets:
            call = self.earliest(some, "revoked")
            if call:
                return str(answers[kind].format(CALL=call))
        for name, has in names.image:
            if has < self.generations.get(name, 0):
                return str(answers["component"].format(
                    NAME=name, HAS=has, CALL=self.by[(name, "raised")],
                    GENERATION=self.generations[name]))
        for kind, some in sets:
            call = self.earliest(some, "listed")
            if call:
                return str(answers[f"listed {kind}"].format(CALL=call))
        return str(answers["none"])

    def line(self, line: str, wanted: set[str]) -> None:
        """Takes a line, and reads it only if it may matter."""
        parts = line.split("\t")
        if len(parts) != 5:
            return
        if parts[3].startswith("submit ") and parts[4].startswith("submitted "):
            self.submitted[parts[4][10:]] = line
        if parts[3].startswith(BY_NUMBER) or any(name in line for name in wanted):
            one = minute(line)
            if one:
                self.take(one)


def story(names: Names, lines: Iterable[str]) -> Story:
    """What the lines tell of the names."""
    kept, found = list(lines), Story(names)
    for line in kept if names.files else []:
        if any(file in line for file in names.files):
            one = minute(line)
            if one and one.said and one.said.has("FILE"):
                names.widen(one.said)
    wanted = names.all()
    for line in kept:
        found.line(line, wanted)
    return found
