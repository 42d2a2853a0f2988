"""The program beside a plain model of the desk.

The model is Python, written from the documents and the definitions, and shares no code with the
desk nor with python/kovelamiru. A walk of some 2,300 requests that a seed gives (SEED of the
environment, or 1) goes to one `desk serve` after another: each command is accepted, refused for
each of its refusals but Full, and repeated under its key, an import by each of its routes; what
people are shown is read; more than 300 proposals of all kinds, and impacts over more than 300
requests whose images share certificates, digests and components. Each response is compared whole.
After each hundred the server ends or is killed, and dbx, db, shim, level and minutes, the verdicts
on some images, some impacts and what the console adds are compared by single runs, then the
requests as a submitter, a reviewer and an officer see them. The desk stands in a file beside
others' tables, an index and a view, whose rows stay. The walk fails if a command, a refusal or a
repeat didn't come.

Most requests have an If-Match, where it has an effect and elsewhere: the tag of what the path
names, which the model works out by itself, now and then another, or what is no tag."""
from __future__ import annotations

import os

import pytest

from checks.model.walk import Walk
from checks.support.program import Program
from checks.support.says import expect


@pytest.mark.long(100)
def test_a_walk_of_requests_is_answered_as_the_model_has_it(desk: Program) -> None:
    walk = Walk(desk, int(os.environ.get("SEED", "1")))
    walk.goes()
    expect(walk.lacking(), [], "what didn't come, or not often enough")
