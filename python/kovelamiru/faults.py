"""How a run ends before its work is done: exit statuses, and what is told."""
from __future__ import annotations

import ssl
from typing import Callable, NoReturn, Optional

from .refusals import BEFORE_KEYS, next_steps, why
from .words import printable

# Exit statuses.
DONE, REFUSED, WORDS, LOST, NOT_ALLOWED = 0, 1, 2, 3, 4


class Stop(Exception):
    """The end of a run: its exit status, what happened, and lines below it that say what to do."""

    # Whether an earlier try of the same call may have reached the desk.
    tried = False

    def __init__(self, status: int, text: str, *more: str):
        super().__init__(text)
        self.status = status
        self.more = list(more)

    def settles(self) -> bool:
        """Whether it shows that no earlier try under the same key was taken."""
        return False


class Refused(Stop):
    """The desk refuses; docs/REFUSALS.md has the numbers."""
    def __init__(self, number: int, name: str, place: Optional[int] = None):
        super().__init__(REFUSED, "")
        self.number, self.name, self.place = number, name, place
        self.explained = False
        # The desk's own JSON, keys in ascending order.
        self.answer = {**({} if place is None else {"at": place}), "name": name, "refused": number}

    def __str__(self) -> str:
        at = "" if self.place is None else f" at {self.place}"
        return f"refused {self.number} {printable(self.name)}{at}: {why(self.number)}"

    def settles(self) -> bool:
        """The desk looks at the key before its rules; a key that was taken gets its old reply. Some
        refusals come before that."""
        return self.number not in BEFORE_KEYS


class Lost(Stop):
    """There was no answer, or none that says whether the desk took the command."""
    def __init__(self, text: str, sent: bool, *more: str):
        super().__init__(LOST, text, *more)
        self.sent = sent


# What to do where the answer may be of something else than a desk.
LOOK = "Look at the URL: is the desk there?"


def no_desks(text: str) -> Lost:
    """An answer that isn't a desk's, and why."""
    return Lost(f"the answer isn't a desk's: {text}", True, LOOK)


class NoAnswer(Exception):
    """One try without an answer; `nobody` listens there, or that isn't known."""
    def __init__(self, text: str, sent: bool, nobody: bool = False):
        super().__init__(text)
        self.sent, self.nobody = sent, nobody


class Unreadable(ValueError):
    """Bytes that can't be read as what they seem to be; `step` says what to do."""
    def __init__(self, text: str, step: str = "Is the file whole? Nothing was sent."):
        super().__init__(text)
        self.step = step


def wrong(text: str, *more: str) -> NoReturn:
    """The words or the files of the command line are wrong; nothing was sent."""
    raise Stop(WORDS, text, *more)


def broken(text: str, *more: str) -> NoReturn:
    """A file, the connection or a program failed."""
    raise Stop(LOST, text, *more)


def reason(error: BaseException) -> str:
    """What the system says of a fault."""
    if isinstance(error, OSError) and error.strerror and not isinstance(error, ssl.SSLError):
        return error.strerror
    return str(error) or type(error).__name__


# A number and what may be found out here of its cause.
Causes = dict[int, Callable[[Refused], list[str]]]


def explained(refused: Refused, causes: Causes) -> Refused:
    """The refusal with its cause, where that can be found, and what to do."""
    found: list[str] = []
    if refused.number in causes:
        try:
            found = causes[refused.number](refused)
        except (Stop, OSError, ValueError, LookupError, TypeError):
            found = []
    if not refused.explained:
        refused.more = refused.more + found + next_steps(refused.number)
    refused.explained = True
    return refused
