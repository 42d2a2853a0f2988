"""Histories of desks, which are filled over HTTP: what the benches share."""
from checks.support.images import PLAIN, sha256
from checks.support.messages import PEOPLE
from checks.support.says import expect
from checks.support.server import Server
from checks.support.steps import confirms, drops, lists, named, proposes, reviews, submits


def digest_of(kind, number):
    """A digest for each kind and number, spread over their whole range."""
    return sha256(f"{kind} {number}".encode())


class History:
    """The calls of a desk, in their order. Each method gives the steps of what it names."""

    def __init__(self):
        self.calls, self.proposals, self.requests, self.number = len(PEOPLE), 0, 0, 0

    def key(self):
        self.number += 1
        return f"k{self.number}"

    def proposed(self, path, body, *fields):
        self.proposals += 1
        return proposes("olga", self.key(), path, body, self.proposals, *fields)

    def revocation(self):
        number = self.number
        first = self.proposed("/dbx/digests", named(digest_of("revoked", number)))
        return [first, confirms("otto", self.key(), self.proposals, 1, 0, 0, 0)]

    def dropped(self):
        first = self.proposed("/dbx/digests", named(digest_of("dropped", self.number)))
        return [first, drops("otto", self.key(), self.proposals)]

    def request(self):
        self.requests += 1
        first = submits("ann", self.key(), PLAIN, "a loader", self.requests)
        number = self.requests
        return [
            first, reviews("rita", self.key(), number, "yes", "open"),
            reviews("raul", self.key(), number, "yes", "approved")
        ]

    def listed(self):
        return [lists("olga", self.key(), digest_of("listed", self.number))]

    def hundred(self):
        """A hundred calls."""
        steps = [step for _ in range(42) for step in self.revocation()]
        steps += [step for _ in range(5) for step in self.dropped()]
        return [*steps, *self.request(), *(step for _ in range(3) for step in self.listed())]


def fill(program, desk, history, size):
    """Gives the desk calls, a hundred at a time, until it has accepted so many."""
    with Server(program, desk) as server:
        while history.calls < size:
            for step in history.hundred():
                expect(server.ask(step.given, ends=False), step.due, "a call of the history")
            history.calls += 100
    program.gives("level", desk)
