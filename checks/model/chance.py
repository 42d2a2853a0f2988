"""A walk's requests, drawn over what the model holds."""
from __future__ import annotations

from typing import Any, Callable

from checks.model.asking import Asked
from checks.model.desk import Desk
from checks.model.facts import Refusal
from checks.model.parts import Parts
from checks.model.tables import signed
from checks.model.wishes import CALLERS, Wish, route_of
from checks.support.images import (
    STORED, X509_KIND, certificate_list, digest_list, signature_list
)
from checks.support.messages import said, token


class Chance(Parts):
    """The walk's choices of requests."""

    # ---- commands

    def post(self, caller: str, path: str, body: bytes, **more: Any) -> Asked:
        return Asked(token(caller), "POST", path, self.key(caller), body=body, **more)

    def submit(self) -> Asked:
        return self.post(
            self.caller("submitter", "reviewer"), "/requests", self.image(), title=self.title()
        )

    def review(self) -> Asked:
        vote = said(
            {
                "note": self.one(["", "read it", '"\\'])[:200],
                "vote": "no" if self.often(0.15) else "yes"
            }
        )
        return self.post(
            self.caller("reviewer"), f"/requests/{self.number(len(self.desk.requests))}/review",
            vote
        )

    def withdraw(self) -> Asked:
        number = self.number(len(self.desk.requests))
        caller = self.caller("submitter", "reviewer")
        own = [one.number for one in self.desk.requests if one.submitter == caller]
        return self.post(
            caller, f"/requests/{self.one(own) if own and self.often(0.7) else number}/withdraw",
            b"any"
        )

    def return_of(self) -> Asked:
        """Mostly the approved image itself, perhaps padded, with a table."""
        approved = [str(one.number) for one in self.desk.requests if one.state() == "approved"]
        number = self.one(approved) if approved and self.often(0.8) else self.number(
            len(self.desk.requests)
        )
        is_there = number.isdecimal() and 1 <= int(number) <= len(self.submitted)
        image = self.submitted[int(number) - 1] if is_there and self.often(0.85) else self.base()
        if self.often(0.3):
            image = image.ljust(-(-len(image) // 8) * 8, b"\0")
        return self.post(
            self.caller("signer"), f"/requests/{number}/return",
            signed(image, self.table() if self.often(0.9) else b"")
        )

    def list_certificate(self) -> Asked:
        return self.post(self.caller("officer"), "/db/certificates", self.certificate())

    def list_digest(self) -> Asked:
        return self.post(
            self.caller("officer"), "/db/digests", said({"digest": self.written(self.digest())})
        )

    def unlist(self) -> Asked:
        kind = self.one(["digest", "certificate"])
        there = [*self.desk.listed[kind]] if self.often(0.7) else []
        digest = self.one(there) if there else self.digest() if kind == "digest" else self.carried()
        return self.post(
            self.caller("officer"), "/db/unlist",
            said({"digest": self.written(digest), "kind": kind})
        )

    def revoke_digest(self) -> Asked:
        return self.post(
            self.caller("officer"), "/dbx/digests", said({"digest": self.written(self.digest())})
        )

    def revoke_certificate(self) -> Asked:
        digest = self.random.randbytes(32).hex() if self.often(0.4) else self.carried()
        return self.post(
            self.caller("officer"), "/dbx/certificates", said({"digest": self.written(digest)})
        )

    def raise_level(self) -> Asked:
        name, generation = ("sbat", 2) if self.often(0.02) else self.component()
        body = said({"component": name, "generation": generation, "stamp": self.stamp()})
        return self.post(self.caller("officer"), "/level", body)

    def import_of(self) -> Asked:
        makes: Callable[[str], Asked] = self.one(
            [self.import_lists, self.import_csv, self.import_level]
        )
        return makes(self.caller("officer"))

    def import_lists(self, caller: str) -> Asked:
        digests = [self.digest() for _ in range(self.random.randint(0, 5))]
        revoked = [self.carried() for _ in range(self.random.randint(0, 2))]
        whole = [
            signature_list(X509_KIND, [one])
            for one in (self.certificate(), b"no certificate") if self.often(0.4)
        ]
        lists = [
            digest_list(digests), certificate_list(revoked, self.random.randbytes(16)), *whole,
            signature_list(STORED, [b"it"] * 2)
        ]
        self.random.shuffle(lists)
        return self.post(caller, "/imports/dbx", b"".join(lists))

    def import_csv(self, caller: str) -> Asked:
        rows = [f"sha256,{self.written(self.digest())}," for _ in range(self.random.randint(0, 4))]
        rows += [f"x509_sha256,{self.carried()}," for _ in range(self.random.randint(0, 2))]
        rows += ["sbat,{},{}".format(*self.component()) for _ in range(self.random.randint(0, 3))]
        self.random.shuffle(rows)
        ends = self.one(["\n", "\r\n", "\r"])
        stamp = self.stamp() if self.often(0.8) else None
        return self.post(
            caller, "/imports/csv", ends.join(["kind,value,generation", *rows, ""]).encode(),
            stamp=stamp
        )

    def import_level(self, caller: str) -> Asked:
        rows = ["{},{:03}".format(*self.component()) for _ in range(self.random.randint(0, 4))]
        return self.post(
            caller, "/imports/level", "\n".join([f"sbat,1,{self.stamp()},more", *rows, ""]).encode()
        )

    def proposed(self) -> str:
        """The number of a proposal, mostly of an open one."""
        open_ones = [str(one.number) for one in self.desk.proposals if one.state == "open"]
        return self.one(open_ones) if open_ones and self.often(0.8) else self.number(
            len(self.desk.proposals)
        )

    def closing(self, what: str) -> Asked:
        return self.post(self.caller("officer"), f"/proposals/{self.proposed()}/{what}", b"")

    def confirm(self) -> Asked:
        return self.closing("confirm")

    def drop(self) -> Asked:
        return self.closing("drop")

    def explain(self) -> Asked:
        """A proposal in any state; now and then no reason."""
        number = self.proposed() if self.often(0.5) else self.number(len(self.desk.proposals))
        reason = self.one(
            ["", "lost ", "\u00e9", "x" * 201]
        ) if self.often(0.1) else self.one(["lost", '"\\" of 2023', "x" * 200])
        return self.post(
            self.caller("officer"), f"/proposals/{number}/explain", said({"text": reason})
        )

    # ---- If-Match

    def match(self, asked: Asked) -> tuple[str, ...]:
        """Often none, or the tag of what the path names; now and then another, or of no form."""
        if self.often(0.4):
            return ()
        what, number, _ = asked.parts()
        tags = self.tags(what)
        is_there = (number or "").isdecimal() and 1 <= int(number or 0) <= len(tags)
        right = tags[int(number or 0) - 1] if is_there else self.random.randbytes(32).hex()
        if self.often(0.7):
            return (f'"{right}"',)
        return self.no_tag(right) if self.often(0.4) else (f'"{self.other(tags, right)}"',)

    def tags(self, what: str) -> list[str]:
        """The tag of each request, or of each proposal."""
        if what == "requests":
            return [one.facts.file for one in self.desk.requests]
        return [one.entries.tag() for one in self.desk.proposals]

    def other(self, tags: list[str], right: str) -> str:
        """Another tag: of another of these, or of the image that was returned, the image's digest,
        or one of which half is right."""
        request = next((one for one in self.desk.requests if one.facts.file == right), None)
        images = [] if request is None else [request.facts.digest, request.facts.signing]
        if request is not None and request.returned is not None:
            images.append(request.returned.file)
        half = self.random.randbytes(16).hex()
        return self.one([*images, half + right[32:], right[:32] + half, self.one(tags or [right])])

    def no_tag(self, right: str) -> tuple[str, ...]:
        """What isn't one strong tag of a digest."""
        tag = f'"{right}"'
        return self.one(
            [
                ("*",), (f"W/{tag}",), (right,), (tag.upper(),), (tag, tag), (f"{tag}, {tag}",),
                (f'"{right[:-1]}"',), (f'"{right}0"',), ("",), (tag[:-1],)
            ]
        )

    # ---- reads

    def get(self, caller: str, path: str) -> Asked:
        return Asked(token(caller), "GET", path)

    def impact(self) -> Asked:
        return self.get(self.caller("officer"), f"/proposals/{self.proposed()}/impact")

    def read(self) -> Asked:
        caller = self.caller(*CALLERS)
        proposals, minutes = self.number(len(self.desk.proposals)), self.random.randint(
            1, len(self.desk.minutes) + 1
        )
        paths = [
            f"/requests/{self.number(len(self.desk.requests))}", f"/proposals/{proposals}",
            f"/requests/from/{self.random.randint(1, len(self.desk.requests) + 1)}",
            f"/proposals/from/{self.random.randint(1, len(self.desk.proposals) + 1)}", "/waiting",
            "/changes", f"/minutes/{minutes}", "/proposals", "/people", "/me", "/report", "/level",
            "/dbx", "/db", f"/requests/with/{self.searched()}"
        ]
        if self.often(0.4):
            return Asked(token(caller), "POST", self.one(["/verdict", "/facts"]), body=self.image())
        return self.get(caller, self.one(paths))

    # ---- wishes

    def draw(self, kind: str) -> Asked:
        makes: dict[str, Callable[[], Asked]] = {
            "submit": self.submit, "review": self.review, "withdraw": self.withdraw,
            "return": self.return_of, "list-certificate": self.list_certificate,
            "list-digest": self.list_digest, "unlist": self.unlist,
            "revoke-digest": self.revoke_digest, "revoke-certificate": self.revoke_certificate,
            "raise": self.raise_level, "import": self.import_of, "confirm": self.confirm,
            "drop": self.drop, "explain": self.explain, "impact": self.impact, "read": self.read
        }
        asked = makes[kind]()
        return asked._replace(match=self.match(asked))

    def wished(self, wish: Wish) -> Asked:
        """A request with this outcome, if one of many that are drawn has it; an accepted one again,
        of this route if there is one."""
        if wish.kind == "repeat":
            there = [one for one in self.accepted if route_of(one) == wish.outcome]
            return self.one(there or self.accepted) if self.accepted else self.read()
        if wish.outcome == "UnknownCaller":
            return self.draw(wish.kind)._replace(
                token=self.one(["nobody-token-0001", token("console")])
            )
        for _ in range(100):
            asked = self.draw(wish.kind)
            if not wish.outcome or outcome_of(self.desk, asked) == wish.outcome:
                break
        return asked


def outcome_of(desk: Desk, asked: Asked) -> str:
    """What a command or a question comes to, by the model."""
    try:
        caller = desk.caller(asked.token)
        if asked.key is not None:
            return desk.outcome(caller, asked.key, desk.matched(caller, asked))
        desk.read(caller, asked)
    except Refusal as why:
        return why.name
    return "accepted"
