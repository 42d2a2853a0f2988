"""Lines of minutes: numbered from 1, fetched from a desk in parts, appended to a copy."""
from __future__ import annotations

from collections import deque
from dataclasses import dataclass, field
from typing import BinaryIO, Iterator

from .desk import Desk
from .http import TEXT, not_a_desk


# The most lines that a desk shows at once.
MOST_LINES = 1000


def is_numbered(data: bytes, number: int) -> bool:
    """Whether these are whole lines, the first of which has this number."""
    lines = data.split(b"\n")
    return not lines.pop() and all(
        line.startswith(b"%d\t" % at) for at, line in enumerate(lines, number))


def minutes_from(desk: Desk, number: int) -> bytes:
    """The desk's lines from this one on, 1,000 at most, or none."""
    answer = desk.get(f"/minutes/{number}").of_type(TEXT)
    data = answer.data()
    if not is_numbered(data, number):
        raise not_a_desk(answer)
    return data


def minute_parts(desk: Desk) -> Iterator[bytes]:
    """All lines of the desk's minutes, some at a time."""
    number = 1
    while data := minutes_from(desk, number):
        yield data
        number += data.count(b"\n")


def minute_lines(desk: Desk) -> Iterator[str]:
    """The same one by one, without their ends."""
    for data in minute_parts(desk):
        yield from data.decode("ascii", "replace").splitlines()


@dataclass
class Copy:
    """A copy of minutes: how many whole lines it has, where they end, the last of them, the last
    that a desk shows at once, and what a run that was stopped left behind them; `odd` is the number
    of a line that doesn't begin so."""

    count: int = 0
    end: int = 0
    last: bytes = b""
    lasts: deque[bytes] = field(default_factory=lambda: deque(maxlen=MOST_LINES))
    rest: bytes = b""
    odd: int = 0


def copy_of(file: BinaryIO) -> Copy:
    """What a file has, up to a line that isn't one of minutes."""
    found = Copy()
    for line in file:
        if not line.endswith(b"\n"):
            found.rest = line
        elif not line.startswith(b"%d\t" % (found.count + 1)):
            found.odd = found.count + 1
            break
        else:
            found.count, found.end, found.last = found.count + 1, found.end + len(line), line
            found.lasts.append(line)
    return found


def first_other(desk: Desk, file: BinaryIO, count: int) -> int:
    """The number of the first of so many lines of a copy that isn't the desk's; 0 without one."""
    file.seek(0)
    number = 1
    while number <= count:
        lines = minutes_from(desk, number).splitlines(keepends=True)[:count - number + 1]
        for line in lines:
            if file.readline() != line:
                return number
            number += 1
        if not lines:
            return number
    return 0
