"""Waiting for what comes soon."""
from __future__ import annotations

import time
from typing import Callable, TypeVar

from checks.support.says import fail, short

T = TypeVar("T")


def until(
    seconds: float, what: str, holds: Callable[[], T], seen: Callable[[], object] = lambda: ""
) -> T:
    """Waits for a condition, and gives what it gave. `seen` says what was there instead."""
    ends = time.monotonic() + seconds
    while True:
        found = holds()
        if found:
            return found
        if time.monotonic() > ends:
            fail(f"in vain for {seconds} s: {what}; there was: {short(seen(), 1500)}")
        time.sleep(0.1)
