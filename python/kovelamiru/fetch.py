"""A file of a web server, fetched without a token. A redirect isn't followed."""
from __future__ import annotations

import ssl
import threading
import time
from typing import Callable, Optional, Sequence

from .faults import NoAnswer, broken, reason
from .http import Answer, Call, Site, address


def fetched(url: str, ca: Optional[str], program: str, seconds: float, most: int,
            heard: Callable[[int], None] = lambda _: None) -> Answer:
    """What is at this URL, whole, in so many seconds and bytes. What came so far is told."""
    at = address(url)
    try:
        context = ssl.create_default_context(cafile=ca) if at.tls else None
    except OSError as error:
        broken(f"the certificates {ca}: {reason(error)}")
    site = Site(at, context, "", program)
    site.until, site.most_bytes = time.monotonic() + seconds, most
    site.heard = heard
    answer = site.once(Call("GET", ""))
    if answer.status != 200:
        raise NoAnswer(f"status {answer.status}", True)
    return answer


def side_by_side(works: Sequence[Callable[[], None]], seconds: float) -> None:
    """Does all of these at once, for so long at most: what isn't done by then is nobody's."""
    threads = [threading.Thread(target=work, daemon=True) for work in works]
    for one in threads:
        one.start()
    until = time.monotonic() + seconds
    for one in threads:
        one.join(max(until - time.monotonic(), 0))
