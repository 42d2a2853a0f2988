"""The commands that look at an image at hand: facts, compare."""
from __future__ import annotations

from typing import Optional, Sequence

from ..answers import request_of
from ..compare import (differences, facts_doubts, likeness, named_rows, signature_rows, subjects,
                       today_lines)
from ..facts import Facts
from ..faults import DONE, NOT_ALLOWED
from ..files import IMAGE_LIMIT, read_file
from ..pkcs7 import Signature, signatures_of
from ..standing import Standing, entries_of, standing_of
from ..words import printable
from .images import facts_read_by
from .run import Run

OWN_READING = "Signatures: deskctl's own reading, which isn't proved. None of them is checked."


def facts(run: Run) -> None:
    """Of each file, with what is listed and revoked where a desk is named."""
    now = standing_of(run.desk) if run.settings.url and not run.words.json else None
    for number, path in enumerate(run.words.files):
        data = read_file(path, IMAGE_LIMIT, "an image has")
        found = facts_read_by(run, path, data)
        if run.words.json:
            run.print_json(found.value())
            continue
        if number:
            run.terminal.say()
        show_facts(run, path, found, signatures_of(data), now)
    if not run.words.json:
        run.terminal.note(OWN_READING)
        if now is None:
            run.terminal.note("No desk is named, so what is listed and revoked isn't shown.")


def show_facts(run: Run, path: str, found: Facts, signatures: Sequence[Signature],
               now: Optional[Standing]) -> None:
    run.terminal.say(printable(path))
    rows = named_rows(found, subjects(signatures)) + signature_rows(found, signatures)
    for name, value in rows:
        run.terminal.say(f"  {name:<11} {printable(value)}")
    for doubt in facts_doubts(found, signatures):
        run.terminal.doubt(doubt)
    if now is not None:
        for line in today_lines(run.desk.where, entries_of(now, found)):
            run.terminal.say(line)


def compare(run: Run) -> int:
    number, path = run.words.number, run.words.file
    data = read_file(path, IMAGE_LIMIT, "an image has")
    one = request_of(run.desk, number)
    here = facts_read_by(run, path, data)
    alike, words = likeness(one, here)
    if run.words.json:
        run.print_json(here.value())
        return DONE if alike else NOT_ALLOWED
    signatures = signatures_of(data)
    run.terminal.say(f"{printable(path)} beside request {number} ({printable(one.state)}, of"
                     f" {printable(one.submitter)}): {printable(one.title)}")
    run.terminal.say(words)
    if here.file != one.file:
        for line in differences(one, here, subjects(signatures)):
            run.terminal.say(line)
    for name, value in signature_rows(here, signatures):
        run.terminal.say(f"  {name:<11} {printable(value)}")
    for doubt in facts_doubts(here, signatures):
        run.terminal.doubt(doubt)
    for line in today_lines(run.desk.where, entries_of(standing_of(run.desk), here)):
        run.terminal.say(line)
    run.terminal.note(OWN_READING)
    return DONE if alike else NOT_ALLOWED
