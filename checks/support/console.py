"""A day of a desk on the command line: calls one at a time, and the minutes that are due."""
from __future__ import annotations

from checks.support.images import sha256
from checks.support.messages import token
from checks.support.program import Program
from checks.support.tools import EXAMPLES

PEOPLE = (
    "ann/submitter", "rita/reviewer", "raul/reviewer", "rosa/reviewer", "sid/signer",
    "olga/officer", "otto/officer",
)
SIGNED = EXAMPLES / "signed.efi"
NOT_LISTED, FIRST_LEVEL = b"refused not-listed\n", b"sbat,1,2021030218\n"


def typed(name: str) -> bytes:
    """What a person types at the console."""
    return f"{token(name)}\n".encode()


def summed(name: str) -> bytes:
    """What sha256sum writes of a person's token."""
    return f"{sha256(token(name).encode())}\n".encode()


class Day:
    """A desk, and the minutes that are due."""

    def __init__(self, desk: Program, path: str) -> None:
        self.desk, self.path, self.minutes = desk, path, b""

    def keeps(self, caller: str, key: str, call: str, reply: str) -> None:
        """The minutes have one more call, this one."""
        number = self.minutes.count(10) + 1
        self.minutes += f"{number}\t{caller}\t{key}\t{call}\t{reply}\n".encode()

    def adds(self, name: str, role: str, key: str) -> None:
        """The console adds a person; `enrol` makes the same call of the token's SHA-256."""
        added = (0, f"added {name}\n".encode(), b"")
        for subcommand, given in (("person", typed(name)), ("enrol", summed(name))):
            self.desk.ends(*added, subcommand, self.path, name, role, key, given=given)
        hashed = sha256(token(name).encode())
        self.keeps("console", key, f"add-person {name} {role} {hashed}", f"added {name}")

    def exports(self, name: str, due: bytes) -> None:
        self.desk.ends(0, due, b"", name, self.path)

    def kept(self) -> None:
        self.exports("minutes", self.minutes)

    def fails(self, line: str, *words: str, given: bytes = b"", status: int = 1) -> None:
        due = f"{line}\n".encode()
        self.desk.ends(status, b"", due, words[0], self.path, *words[1:], given=given)

    def judges(self, status: int, due: str) -> None:
        self.desk.ends(status, f"{due}\n".encode(), b"", "verdict", self.path, SIGNED)
