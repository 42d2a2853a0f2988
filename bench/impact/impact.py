"""Measures impacts of proposals over HTTP: see ../impact.sh."""
import re
import sys
from typing import NamedTuple

from counting import Counting, asks
from checks.support.images import PLAIN, TABLE, authenticode, changed, with_table, with_text
from checks.support.messages import got
from checks.support.program import alone
from checks.support.says import fail
from checks.support.server import Server
from checks.support.steps import named, submits
from histories import History, digest_of, fill

sys.stdout.reconfigure(line_buffering=True)
LIBRARY = sys.argv[2]
SIZES = [int(it) for it in sys.argv[3:]] or [1_000, 100_000]
# So many images, or some more, are touched at a desk where each is another.
TOUCHED = 100
# A further call may take so many times the instructions of one of the first, and an impact without
# images so many bytes of memory more than at the first size.
MOST_RATIO, MOST_MEMORY = 1.1, 4_096
SBAT = (
    b"sbat,1,SBAT Version,sbat,1,https://github.com/rhboot/shim/blob/main/SBAT.md\n"
    b"shim,4,UEFI shim,shim,1,https://github.com/rhboot/shim\n"
)


class Mixed(History):
    """Of each hundred calls one submits an image, always the same."""

    def touching(self):
        """The path and the body of a proposal that touches images."""
        return "/dbx/digests", named(authenticode(PLAIN))


class Submissions(History):
    """Each call submits an image of its own."""

    def image(self, number):
        return changed(PLAIN, (600, f"{number:08x}"))

    def submission(self):
        self.requests += 1
        return submits("ann", self.key(), self.image(self.requests), "a loader", self.requests)

    def hundred(self):
        return [self.submission() for _ in range(100)]

    def touching(self):
        digests = (
            authenticode(self.image(it)) for it in range(1, self.requests, self.requests // TOUCHED)
        )
        return "/imports/csv", "".join(
            ["kind,value,generation\n", *(f"sha256,{it},\n" for it in digests)]
        ).encode()


class Loaders(Submissions):
    """The images have two components, and a certificate in their tables."""

    def image(self, number):
        return with_table(with_text(super().image(number), SBAT), TABLE)


class Measured(NamedTuple):
    """Of a desk of so many calls: the instructions and the memory of an impact without images, and
    of one with some, of so many bytes."""

    calls: int
    instructions: float
    memory: int
    images: int
    length: int
    more_instructions: float
    more_memory: int


def heaps(program, desk, requests):
    """The most memory that each request takes above what the server had when it came, in bytes, and
    its response's length."""
    with Server(program, desk, len(requests), env={"LD_PRELOAD": LIBRARY}) as server:
        lengths = [len(server.ask(it, ends=False)) for it in requests]
        _, err = server.process.communicate(timeout=60)
    told = [int(most) - int(first) for first, most in re.findall(rb"heap (\d+) (\d+)", err)]
    if len(told) != len(requests):
        fail(f"a server told of {len(told)} requests: {err!r}")
    return list(zip(told, lengths))


def measured(program, desk, history):
    """Two proposals, of which one names an image or more."""
    calls, without, some = history.calls, history.proposals + 1, history.proposals + 2
    proposals = [
        history.proposed(*it)
        for it in (("/dbx/digests", named(digest_of("nobody's", 0))), history.touching())
    ]
    impacts = [got("otto", f"/proposals/{it}/impact") for it in (without, some)]
    counting = Counting(program, desk)
    with counting.server as server:
        for step in [*proposals, *impacts]:
            asks(server, step)
        answers = [server.ask(it, ends=False) for it in impacts]
        images = [it.count(b'"request":') for it in answers]
        if images[0] or not images[1]:
            fail(f"impacts of {images} images: {answers[0][-200:]!r}, {answers[1][-200:]!r}")
        instructions = [counting.counted([it]) for it in impacts]
    # (the first ones put the store's pages into memory, where later ones find them)
    first, second = heaps(program, desk, impacts * 5)[-2:]
    return Measured(
        calls, instructions[0], first[0], images[1], second[1], instructions[1], second[0]
    )


def shows(what, found):
    print(what)
    for it in found:
        print(
            f"  {it.calls:,} calls: {it.instructions:,.0f} instructions,"
            f" {it.instructions / it.calls:,.0f} a call, {it.memory:,} bytes of"
            f" memory; with {it.images:,} images {it.more_instructions:,.0f} instructions, a"
            f" response of {it.length:,} bytes,"
            f" {it.more_memory:,} bytes of memory"
        )
    first, last = found[0], found[-1]
    if first.calls < last.calls:
        slope = (last.instructions - first.instructions) / (last.calls - first.calls)
        print(f"  {slope:,.0f} instructions for each further call")
        if slope > MOST_RATIO * first.instructions / first.calls:
            fail(f"{what}: a further call takes more instructions than one of the first")
        if last.memory > first.memory + MOST_MEMORY:
            fail(f"{what}: the memory of an impact without images grows with the calls")


HISTORIES = {
    "one submission in a hundred calls": Mixed, "submissions of plain images": Submissions,
    "submissions of images with two components and a certificate": Loaders,
}
with alone(sys.argv[1]) as program:
    for what, kind in HISTORIES.items():
        history, found = kind(), []
        desk = program.founded(f"{kind.__name__}.db")
        for size in SIZES:
            fill(program, desk, history, size)
            # (the proposals go to a copy)
            grown = kind()
            grown.__dict__.update(history.__dict__)
            found.append(measured(program, program.copied(desk, "counted.db"), grown))
        shows(what, found)
