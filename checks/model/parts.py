"""What a walk's requests are made of, drawn over what the model holds."""
from __future__ import annotations

import random
from typing import Iterable, TypeVar

from checks.model.asking import Asked
from checks.model.desk import Desk
from checks.model.facts import Facts, facts_of, tbs_of
from checks.model.tables import signed, table_of
from checks.model.wishes import CALLERS, NAMES
from checks.support.images import PLAIN, changed, with_text
from checks.support.largest import der

T = TypeVar("T")


class Parts:
    """Choices of names, numbers, images, digests and generations, over what the model holds."""

    def __init__(self, seed: int) -> None:
        self.random = random.Random(seed)
        self.desk = Desk()
        # Images without a table: those that came, and that of each request.
        self.images: list[bytes] = []
        self.submitted: list[bytes] = []
        self.accepted: list[Asked] = []
        self.keys = 0

    def often(self, share: float) -> bool:
        return self.random.random() < share

    def one(self, items: Iterable[T]) -> T:
        return self.random.choice([*items])

    # ---- parts of requests

    def caller(self, *roles: str) -> str:
        """Mostly somebody of these roles."""
        wanted = roles if self.often(0.9) else CALLERS
        return self.one(name for name, one in self.desk.people.items() if one.role in wanted)

    def key(self, caller: str) -> str:
        """Mostly a new one."""
        old = [
            one.key for one in self.desk.minutes if one.caller == caller
        ] if self.often(0.15) else []
        if old:
            return self.one(old)
        self.keys += 1
        return f"w{self.keys}"

    def title(self) -> str:
        return self.one(["boot loader", 'a "title" \\ of <it>', "t" * 120, "shim 15.8", "~"])

    def number(self, count: int) -> str:
        """Mostly the number of one of these, of the newer ones more often."""
        if self.often(0.05):
            return self.one(["0", "01", "1000000", "999999", str(count + 1), "x"])
        newer = max(1, count - 40) if self.often(0.5) else 1
        return str(self.random.randint(newer, max(1, count)))

    def written(self, digest: str) -> str:
        """The digest in digits of either case."""
        return digest.upper() if self.often(0.2) else digest

    def certificate(self) -> bytes:
        """One of sixty certificates; some have several bodies, some a length of two bytes."""
        place = self.random.randrange(60)
        tbs = bytes([0x30, 3, 2, 1, place]) if place % 3 else bytes(
            [0x30, 0x81, 200, 4, 0x81, 197, place]
        ).ljust(203, b"\0")
        return der(0x30, tbs + self.one([b"", bytes([4, 1, place % 2])]))

    def base(self) -> bytes:
        """An image without a table that came before, or another one: with SBAT text or not, of any
        length, some with a gap."""
        if self.images and self.often(0.55):
            return self.one(self.images)
        image = changed(PLAIN, (600, self.random.randbytes(2).hex()))
        if self.often(0.75):
            between = self.random.randbytes(16) if self.often(0.1) else b""
            image = with_text(image + between, self.sbat())
        self.images.append(image + self.random.randbytes(self.one([0, 0, 0, 1, 3, 5, 8])))
        return self.images[-1]

    def sbat(self) -> bytes:
        """An image's SBAT text, near the level."""
        names = self.random.sample(NAMES, self.random.randint(0, 3))
        rows = [
            "sbat,1,a,b,1,u", *(f"{name},{self.generation(name, -1, 4)},a,b,1,u" for name in names)
        ]
        return ("\n".join(rows) + "\n").encode()

    def generation(self, name: str, least: int, most: int) -> int:
        """A generation near the level's."""
        return max(1, self.desk.force.level.get(name, 0) + self.random.randint(least, most))

    def table(self) -> bytes:
        return table_of([self.certificate() for _ in range(self.random.randint(1, 3))])

    def image(self) -> bytes:
        """Such an image, some with a table."""
        return signed(self.base(), self.table() if self.often(0.4) else b"")

    def digest(self) -> str:
        """The digest of an image, revoked or listed already or not, or of none."""
        if self.often(0.25):
            return self.random.randbytes(32).hex()
        facts: Facts = self.one(self.desk.images).facts if self.desk.images else facts_of(PLAIN)
        known = [*self.desk.force.digests, *self.desk.listed["digest"]]
        return self.one(known) if known and self.often(0.15) else self.one(
            [facts.digest, facts.signing]
        )

    def carried(self) -> str:
        """The digest of a certificate."""
        return tbs_of(self.certificate()) or ""

    def searched(self) -> str:
        """What requests are looked for by: mostly a digest of one, or of what was returned."""
        some = [one.facts for one in self.desk.requests]
        if self.often(0.5):
            some = [one.returned for one in self.desk.requests if one.returned] or some
        if not some or self.often(0.1):
            return self.written(self.random.randbytes(32).hex())
        facts = self.one(some)
        return self.written(self.one([facts.file, facts.digest, facts.signing, *facts.carried]))

    def stamp(self) -> int:
        """Mostly one above the level's."""
        return self.desk.force.stamp + (
            self.random.randint(1, 400) if self.often(0.85) else self.random.randint(-5, 0)
        )

    def component(self) -> tuple[str, int]:
        name = self.one(NAMES)
        return name, self.generation(name, 0, 2)
