"""The command why: who listed, proposed and confirmed it, and when."""
from __future__ import annotations

import os
import re
from typing import Any, Iterator

from ..faults import Refused, wrong
from ..files import read_file
from ..minutes import minute_lines
from ..pem import certificate_of
from ..sentences import Minute
from ..why import Names, story
from ..words import HEX, brief, printable
from .images import facts_of
from .lists import hex_of
from .run import Run


def names_of(run: Run) -> Names:
    """What the words of `why` name: a SHA-256, an image's or a certificate's file, a component."""
    word = run.words.what
    if run.words.component:
        return Names(components={word})
    if HEX.match(word):
        return Names({word.lower()}, {word.lower()}, {word.lower()})
    if re.fullmatch(r"[0-9A-Fa-f:]{32,}", word):
        hex_of(word, "a SHA-256, the file of an image or a certificate, or a component")
    if not os.path.isfile(word):
        if "/" in word or re.search(r"\.(efi|der|pem|crt|cer)\Z", word):
            wrong(f"{printable(word)} is no file", "It takes a SHA-256, a file, or a component.")
        return Names(components={word})
    if read_file(word, 1 << 28, "a file has here").startswith(b"MZ"):
        facts = facts_of(run, word)
        components = [(name, generation) for name, generation in facts.components]
        return Names({facts.file}, {facts.digest, facts.signing}, set(facts.carried),
                     {name for name, _ in components}, components)
    return Names(certificates={certificate_of(word).tbs})


def lines_of(run: Run) -> Iterator[str]:
    """The minutes' lines: of a copy, or of the desk."""
    if run.words.minutes:
        data = read_file(run.words.minutes, 1 << 31, "a copy has here")
        if data and not data.startswith(b"1\t"):
            wrong(f"{run.words.minutes}: line 1 isn't the minutes' line 1")
        for line in data.splitlines():
            yield line.decode("ascii", "replace")
        return
    try:
        yield from minute_lines(run.desk)
    except Refused as refused:
        if refused.number == 21:
            refused.more.append(
                "Minutes are shown to officers alone: ask one of them, or look into a copy that you"
                " were given: --minutes FILE")
        raise


def shown(run: Run, *parts: object) -> None:
    """A line of parts between tabs; on a terminal of digests their beginnings alone."""
    texts = [printable(part) for part in parts]
    if run.terminal.wide:
        texts = [" ".join(map(brief, text.split(" "))) for text in texts]
    run.terminal.say(("  " if run.terminal.wide else "\t").join(texts))


def call_json(call: Minute) -> dict[str, Any]:
    return {
        "caller": call.caller,
        "key": call.key,
        "number": call.number,
        "reply": call.reply,
        "sentence": call.sentence(),
        "text": call.text,
        "time": call.time() or None}


def why(run: Run) -> None:
    names = names_of(run)
    found = story(names, lines_of(run))
    if run.words.json:
        for call in found.calls:
            run.print_json(call_json(call))
        return
    if found.answer() and (found.calls or found.requests):
        shown(run, found.answer())
    for line in found.now.values():
        shown(run, line)
    for call in found.calls:
        shown(run, f"call {call.number}", call.time() or "-", call.sentence())
    for one in found.requests.values():
        shown(run, f"request {one.number}", one.state, one.submitter, one.how, one.title)
    if not found.calls and not found.requests:
        word = printable(run.words.what)
        taken = f"the component {word}" if names.components == {run.words.what} else word
        run.terminal.note(f"The minutes don't speak of {taken}. Is it spelt right?")
