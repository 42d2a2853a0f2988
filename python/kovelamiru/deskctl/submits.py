"""The command submit, of one file or of several of one upload."""
from __future__ import annotations

import hashlib
from dataclasses import dataclass
from typing import Any, Collection, Optional, Sequence

from ..answers import Request, having, me_of, said_number, shaped
from ..described import LIMITS
from ..faults import Causes, wrong
from ..files import IMAGE_LIMIT, read_file
from ..http import Call
from ..pe import digests_in, has_sbat
from ..questions import twice_question
from ..titles import machine_names, titles_of
from ..words import printable
from .requests import ascii_text
from .run import One, Run, act_each
from .verdicts import body_causes, verdict_causes


@dataclass(frozen=True)
class Image:
    """A file that is submitted, under its title."""

    path: str
    data: bytes
    title: str

    def sum(self) -> str:
        return hashlib.sha256(self.data).hexdigest()


def title_of(text: str) -> str:
    title = ascii_text(text, "title", 1, LIMITS["title"])
    if title != title.strip():
        wrong("a title can't begin or end with a space")
    return title


def images_of(run: Run) -> list[Image]:
    """The files, each with its title: of several each has one of its own."""
    title, paths = title_of(run.words.title), list(dict.fromkeys(run.words.files))
    read = [read_file(path, IMAGE_LIMIT, "an image has") for path in paths]
    titles = [title]
    if len(paths) > 1:
        titles = [title_of(one) for one in titles_of(
            title, [(path, machine_names(data)) for path, data in zip(paths, read)])]
    for at, one in enumerate(titles):
        if one in titles[:at]:
            wrong(f"{paths[titles.index(one)]} and {paths[at]} would both be titled {one!r}",
                  "Submit them apart, each with a title of its own.")
    return [Image(*each) for each in zip(paths, read, titles)]


def alike(run: Run, digests: Collection[str]) -> list[Request]:
    """The requests that have one of these digests, and perhaps others."""
    found = having(run.desk, digests)
    if found and not found.cut:
        return found.requests
    return [shaped(Request, value) for value in run.desk.listed("/requests", texts=digests)]


def submit_asks(run: Run, images: Sequence[Image]) -> None:
    """Before a file or an image that the caller has submitted before, where a person can be asked:
    a script means it."""
    me = me_of(run.desk) if run.terminal.can_ask else None
    if me is None:
        return
    sums = [(one.path, one.sum(), digests_in(one.data)) for one in images]
    found = alike(run, {text for _, file, digests in sums for text in (file, *digests)})
    own = [one for one in found if one.submitter == me.name]
    asks = [f"{printable(path)}: {doubt}" for path, file, digests in sums
            for doubt in [twice_question(own, file, digests)] if doubt]
    if asks:
        run.terminal.ask(asks, "Submit it again? Type yes:")


def submitted(run: Run, one: Image, alone: bool, reply: dict[str, Any]) -> None:
    number = said_number(reply, "request")
    run.terminal.say(f"request {number} submitted" + ("" if alone else f": {one.title}"))
    run.terminal.say(f"file {one.sum()}")
    if alone:
        run.terminal.note(
            f"The desk keeps no image: give the file to the reviewers. `deskctl wait {number}`"
            " waits for two of them.")
    if not has_sbat(one.data):
        why = ": only its digest or its signer can bar it" if alone else ""
        run.terminal.note(f"It has no .sbat{why}.")


def submit(run: Run) -> None:
    images = images_of(run)

    def one_of(one: Image) -> One:
        what = f"submit {one.path} ({one.sum()}), {one.title}"
        call = Call("POST", "/requests", one.data, (("Desk-Title", one.title),), "submitted", what)
        causes: Causes = {**body_causes(one.path, one.data),
                          28: lambda _: verdict_causes(run, one.path, one.data)}
        return One(call, printable(one.path),
                   lambda reply: submitted(run, one, len(images) == 1, reply), causes)

    def asks(taken: bool) -> Optional[str]:
        if not taken:
            submit_asks(run, images)
        return None

    act_each(run, [one_of(one) for one in images], asks)
