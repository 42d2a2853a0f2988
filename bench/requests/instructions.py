"""Counts the instructions of each kind of request at desks with short and long histories: see
../requests.sh."""
import os
import sys

from counting import Counting, asks
from checks.support.images import CERTIFICATE, PLAIN, SIGNED
from checks.support.messages import got, posted, request, token
from checks.support.program import alone
from checks.support.says import fail
from checks.support.steps import (
    confirms, drops, judges, lists, named, raising, returns, reviews, submits, takes
)
from histories import History, digest_of, fill

sys.stdout.reconfigure(line_buffering=True)
SIZES = [int(it) for it in sys.argv[2:]] or [1_000, 10_000, 100_000]
# Two heads of one length. A reader that looks at the whole head after each line end takes many
# times as much for the first.
LINE_ENDS, ONE_FIELD = "GET /level behind 16,000 LF", "GET /level, a long field"
MOST_RATIO = 3


def kinds(history):
    """Each kind of request, with as many as are made. What a request needs stands before it; nobody
    counts it."""
    times = 20
    stamp = 2_024_010_100
    yield "propose a digest", [], [
        history.proposed("/dbx/digests", named(digest_of("new", it))) for it in range(times)
    ]
    first = history.proposals - times
    yield "confirm a digest", [], [
        confirms("otto", history.key(), first + it, 1, 0, 0, 0) for it in range(1, times + 1)
    ]
    yield "propose a certificate", [], [
        history.proposed("/dbx/certificates", named(digest_of("tbs", it))) for it in range(times)
    ]
    first = history.proposals - times
    yield "confirm a certificate", [], [
        confirms("otto", history.key(), first + it, 0, 1, 0, 0) for it in range(1, times + 1)
    ]
    yield "propose a level", [], [
        history.proposed("/level", raising(f"c{it}", 2, stamp + it)) for it in range(times)
    ]
    first = history.proposals - times
    yield "confirm a level", [], [
        confirms("otto", history.key(), first + it, 0, 0, 1, 0) for it in range(1, times + 1)
    ]
    files = [
        "kind,value,generation\n" + "".join(
            f"sha256,{digest_of('import', 10 * it + row)},\n" for row in range(10)
        ) for it in range(times)
    ]
    yield "propose an import of ten", [], [
        history.proposed("/imports/csv", it.encode()) for it in files
    ]
    first = history.proposals - times
    yield "confirm an import of ten", [], [
        confirms("otto", history.key(), first + it, 10, 0, 0, 0) for it in range(1, times + 1)
    ]
    before = [
        history.proposed("/dbx/digests", named(digest_of("to drop", it))) for it in range(times)
    ]
    first = history.proposals - times
    yield "drop a digest", before, [
        drops("otto", history.key(), first + it) for it in range(1, times + 1)
    ]
    closed = [
        posted("otto", "unused", f"/proposals/{it}/confirm", b"") for it in range(1, times + 1)
    ]
    yield "confirm what is closed", [], closed
    submitted = []
    for _ in range(times):
        history.requests += 1
        submitted.append(submits("ann", history.key(), PLAIN, "a loader", history.requests))
    yield "submit an image", [], submitted
    first = history.requests - times
    yield "review", [], [
        reviews("rita", history.key(), first + it, "yes", "open") for it in range(1, times + 1)
    ]
    approved = [
        reviews("raul", history.key(), first + it, "yes", "approved") for it in range(1, times + 1)
    ]
    listing = takes("olga", history.key(), "/db/certificates", CERTIFICATE, {"reply": "listed"})
    returned = [returns("sid", history.key(), first + it, SIGNED) for it in range(1, times + 1)]
    yield "return an image", [*approved, listing], returned
    yield "list a digest", [], [
        lists("olga", history.key(), digest_of("listed now", it)) for it in range(times)
    ]
    unlisted = [
        takes(
            "olga", history.key(), "/db/unlist", named(digest_of("listed now", it), kind="digest"),
            {"reply": "unlisted"}
        )
        for it in range(times)
    ]
    yield "unlist a digest", [], unlisted
    repeated = posted("olga", "k1", "/dbx/digests", named(digest_of("revoked", 0)))
    yield "a key that was given", [], [repeated] * times
    yield "a verdict", [], [judges("ann", SIGNED, {"verdict": "allowed"})] * times
    yield "GET one request", [], [got("ann", f"/requests/{it}") for it in range(1, times + 1)]
    yield "GET /level", [], [got("ann", "/level")] * times
    yield LINE_ENDS, [], [b"\n" * 16_000 + got("ann", "/level")] * times
    filler = ("X-Filler", "a" * (16_000 - len("X-Filler: \r\n")))
    yield ONE_FIELD, [], [request("GET", "/level", [("Desk-Token", token("ann")), filler])] * times
    yield "GET /proposals", [], [got("olga", "/proposals")] * 2
    yield "GET /dbx", [], [got("olga", "/dbx")] * 2


def measured(program, desk, history):
    counting, found = Counting(program, desk), {}
    with counting.server as server:
        asks(server, got("olga", "/report"))
        for name, before, steps in kinds(history):
            # (the first of a kind may count rows, for all that follow)
            for step in [*before, steps[0]]:
                asks(server, step)
            found[name] = counting.counted(steps[1:])
    return found


with alone(sys.argv[1]) as program:
    desk, history, found = program.founded("desk.db"), History(), {}
    for size in SIZES:
        fill(program, desk, history, size)
        pages = os.path.getsize(desk) // 4_096
        print(
            f"a desk of {history.calls:,} calls: {pages:,} pages, {history.proposals:,} proposals"
        )
        # (its own calls go to a copy)
        grown = History()
        grown.__dict__.update(history.__dict__)
        found[size] = measured(program, program.copied(desk, "counted.db"), grown)
    print(f"instructions of one request, and the ratio to {SIZES[0]:,} calls; at {SIZES}")
    for name, first in found[SIZES[0]].items():
        print(f"{name:26}" + "".join(
            f"{found[size][name]:14,.0f} ({found[size][name] / first:4.2f})" for size in SIZES
        ))
    for size in SIZES:
        if found[size][LINE_ENDS] > MOST_RATIO * found[size][ONE_FIELD]:
            fail(
                f"{LINE_ENDS} takes more than {MOST_RATIO} times as many instructions as"
                f" {ONE_FIELD}"
            )
