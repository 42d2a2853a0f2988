"""The command return: one signed file, or a folder of them."""
from __future__ import annotations

import hashlib
import os
from dataclasses import dataclass
from typing import Any, Optional, Sequence

from ..answers import Request, having, request_of, shaped
from ..facts import Facts
from ..faults import Causes, Refused, wrong
from ..files import IMAGE_LIMIT, read_file
from ..http import Call
from ..pkcs7 import signatures_of
from ..questions import carried_question
from ..standing import Standing, standing_of
from ..waiting import waiting_of
from ..words import counted, printable
from .images import facts_of, facts_read_by
from .requests import another_file, state_of
from .run import One, Run, act_each, identity_of
from .verdicts import body_causes, carried_words, verdict_causes


@dataclass(frozen=True)
class Signed:
    """A file for a request."""

    number: int
    path: str
    data: bytes

    def sum(self) -> str:
        return hashlib.sha256(self.data).hexdigest()


def differing(run: Run, number: int, path: str) -> list[str]:
    one, facts = request_of(run.desk, number), facts_of(run, path)
    return [
        f"Reviewed: digest {one.digest}, signing {one.signing}.", f"{path}: digest {facts.digest}."]


def causes_of(run: Run, one: Signed) -> Causes:
    number, path, data = one.number, one.path, one.data
    return {
        **body_causes(path, data), 24: lambda _: state_of(run, number),
        27: lambda _: differing(run, number, path), 28: lambda _: verdict_causes(run, path, data),
        29: lambda _: carried_words(run, path, data), 49: lambda _: another_file(number)}


def doubt_of(one: Request, file: Signed, now: Standing) -> Optional[str]:
    """Where the file carries a listed certificate which isn't its signer's, unless the image's
    digest is listed."""
    if now.digests & {one.digest, one.signing}:
        return None
    return carried_question(signatures_of(file.data), now)


UNCHECKED = "The desk checks no signature: `osslsigncode verify` does, before."


def return_of(run: Run, one: Signed, what: str) -> One:
    def show(_: dict[str, Any]) -> None:
        run.terminal.say(f"request {one.number} signed")
        run.terminal.say(f"returned {one.sum()}")

    call = Call("POST", f"/requests/{one.number}/return", one.data, (), "returned", what)
    return One(call, f"request {one.number}, {printable(one.path)}", show, causes_of(run, one))


def give_back(run: Run) -> None:
    number, path = run.words.number, run.words.file
    if number is None:
        give_all(run, path)
        return
    if os.path.isdir(path):
        wrong(f"{path} is a folder, whose files find their requests by their digests",
              "Without a number: deskctl return FOLDER")
    file = Signed(number, path, read_file(path, IMAGE_LIMIT, "an image has"))

    def asks(taken: bool) -> Optional[str]:
        if taken:
            return None
        run.terminal.note(UNCHECKED)
        one, now = request_of(run.desk, number), standing_of(run.desk)
        doubt = doubt_of(one, file, now)
        if doubt:
            run.terminal.confirm([doubt], "Return it all the same? Type yes:")
        return one.file

    act_each(run, [return_of(run, file, f"return {number} {path} ({file.sum()})")], asks)


# ---- the files of a folder


def files_of(path: str) -> list[str]:
    """The files of a folder, or the one that is named."""
    if not os.path.isdir(path):
        return [path]
    found = [os.path.join(path, name) for name in sorted(os.listdir(path))]
    return [one for one in found if os.path.isfile(one)]


def is_for(one: Request, facts: Facts) -> bool:
    """Whether the image of a request that is approved, or was signed by this very file, is the
    file's."""
    open_ = one.state == "approved" or one.state == "signed" and one.returned == facts.file
    return open_ and facts.digest in (one.digest, one.signing) and facts.file != one.file


@dataclass(frozen=True)
class Image:
    """A file at hand, and what the desk says of it."""

    path: str
    data: bytes
    facts: Facts


def images_of(run: Run, path: str) -> list[Image]:
    """The images of a folder; what is none is told."""
    found = []
    for name in files_of(path):
        data = read_file(name, IMAGE_LIMIT, "an image has")
        try:
            found.append(Image(name, data, facts_read_by(run, name, data)))
        except Refused as refused:
            run.terminal.warn(f"! {printable(name)}: left out: {refused}")
    return found


def candidates(run: Run, images: Sequence[Image]) -> list[Request]:
    """The requests that wait for a signature, and those of the image of a file that is for none of
    these."""
    found = [shaped(Request, value) for value in waiting_of(run.desk).requests]
    left = {image.facts.digest for image in images
            if not any(is_for(one, image.facts) for one in found)}
    more = having(run.desk, left)
    if more is None or more.cut:
        return [shaped(Request, value) for value in run.desk.listed("/requests")]
    both = {one.number: one for one in [*found, *more.requests]}
    return [both[number] for number in sorted(both)]


def matched(run: Run, images: Sequence[Image]) -> list[tuple[Request, Signed]]:
    """The images with their requests, by number. One that is for no request or for several is told
    and left out, as is a second one for a request."""
    requests = candidates(run, images)
    found: dict[int, tuple[Request, Signed]] = {}
    for image in images:
        fits = [one for one in requests if is_for(one, image.facts)]
        numbers = ", ".join(str(one.number) for one in fits)
        if len(fits) == 1 and fits[0].number not in found:
            file = Signed(fits[0].number, image.path, image.data)
            found[file.number] = fits[0], file
            continue
        why = (f"it is the image of requests {numbers}" if len(fits) > 1
               else f"another file is for request {numbers}, too" if fits
               else "it is no signed file of an approved request")
        run.terminal.warn(f"! {printable(image.path)}: left out: {why}")
    return [found[number] for number in sorted(found)]


def give_all(run: Run, path: str) -> None:
    """Each file for the approved request whose image it is. What was returned already goes out
    again with a run that had no answer, and otherwise no more."""
    pairs = matched(run, images_of(run, path))

    def ones() -> list[One]:
        return [return_of(run, file, f"return {path}") for _, file in pairs]

    calls = [one.call for one in ones()]
    if not os.path.exists(run.journal.path(identity_of(run, calls))):
        for one, file in pairs:
            if one.state == "signed":
                run.terminal.note(f"{printable(file.path)}: request {one.number} has it already.")
        pairs = [pair for pair in pairs if pair[0].state == "approved"]
    if not pairs:
        wrong(f"{path} has no signed file of an approved request", "Nothing was sent.")
    act_each(run, ones(), lambda taken: None if taken else all_asks(run, pairs))


def all_asks(run: Run, pairs: Sequence[tuple[Request, Signed]]) -> list[str]:
    """Shows which file goes to which request, and asks once."""
    now, doubts = standing_of(run.desk), []
    for one, file in pairs:
        run.terminal.note(
            f"request {one.number}: {printable(file.path)}, for {printable(one.title)}")
        doubt = doubt_of(one, file, now)
        doubts += [f"{printable(file.path)}: {doubt}"] if doubt else []
    run.terminal.note(UNCHECKED)
    question = f"Return {counted(len(pairs), 'file')} so? Type yes:"
    if doubts:
        run.terminal.confirm(doubts, question)
    else:
        run.terminal.ask([], question)
    return [one.file for one, _ in pairs]
