"""Where a run is stopped, and what a stop may leave of a desk's files."""
from __future__ import annotations

from typing import Iterable, Iterator, NamedTuple

from checks.desk.stops.places import LONG, ONLY, WAYS, Files, Ran


def common(these: bytes, those: bytes) -> int:
    """The number of bytes with which both begin."""
    least, most = 0, min(len(these), len(those))
    while least < most:
        middle = (least + most + 1) // 2
        least, most = (middle, most) if these[:middle] == those[:middle] else (least, middle - 1)
    return least


def torn(synced: bytes, written: bytes) -> bytes:
    """A log with these bytes synced, into which the first half of what was written since then
    came."""
    begin, end = common(synced, written), len(written)
    if len(synced) == end:
        end -= common(synced[begin:][::-1], written[begin:][::-1])
    half = begin + (end - begin) // 2
    return written[:half] + synced[half:]


def remains(ran: Ran) -> dict[str, Files]:
    """The files as a stop may leave them, each once: with all that was written, with what was
    synced, and with that and a torn log."""
    left = {"all that was written": ran.written, "what was synced": ran.synced}
    if ran.synced.log is not None and ran.written.log is not None:
        left["what was synced and half of the log"] = ran.synced._replace(
            log=torn(ran.synced.log, ran.written.log)
        )
    return {
        name: one
        for number, (name, one) in enumerate(left.items()) if one not in [*left.values()][:number]
    }


class Stop(NamedTuple):
    """The way of a stop, and the number of its call; one more than there are is the end of the
    run."""

    way: str
    number: int


def at(stop: Stop | None) -> tuple[int, str]:
    """The number and the way of a stop, or of none."""
    return (stop.number, stop.way) if stop else (0, "kill")


def places(length: int, every: bool) -> Iterator[int]:
    """The numbers of the calls at which a run of so many is stopped."""
    number = 1
    while number <= length:
        yield number
        number += 1 if every or number < 20 else 1 + length // LONG


def spread(begin: int, end: int, count: int) -> list[int]:
    """So many numbers from the first to the last of these, as far from one another as they can
    be."""
    return [begin + (end - begin) * one // (count - 1) for one in range(count)]


def stops_of(length: int, numbers: Iterable[int]) -> list[Stop]:
    """The stops of a run of so many calls at these numbers, and behind its last call; or the one
    that is asked for."""
    stops = [*(Stop(way, number) for number in numbers for way in WAYS), Stop("end", length + 1)]
    found = [one for one in stops if len(ONLY) < 2 or [one.way, str(one.number)] == ONLY]
    assert found, f"there is no stop {ONLY}"
    return found
