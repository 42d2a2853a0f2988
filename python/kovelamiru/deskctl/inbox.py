"""The command inbox, which deskctl without words is, too."""
from __future__ import annotations

from typing import Mapping, Sequence

from ..answers import Counts, Me, Request, me_of, shaped
from ..proposals import counts_words, names_of
from ..reasons import reasons_in, with_reason
from ..standing import barred_by, revoked_of
from ..waiting import ages_in, last_calls, own_proposals, waiting_of, yes_words
from .requests import grouped
from .run import Run
from .seen import noticed

Rows = Sequence[tuple[object, ...]]
# The titles of the two tables.
WAITS, OWN = "Waits for you", "Yours under way"


def request_rows(run: Run, requests: Sequence[Request]) -> Rows:
    """Each request with its votes, and whether its image is barred today."""
    now = revoked_of(run.desk) if requests else None
    return [(one.number, one.title, one.submitter,
             yes_words(one) if one.state == "open" else one.state,
             "barred" if now and barred_by(now, one) else "-") for one in requests]


def proposal_rows(proposals: Sequence[Counts], ages: Mapping[int, str],
                  names: Mapping[int, str]) -> Rows:
    """Each proposal with what it names, and its age."""
    return [(one.number, names.get(one.number) or counts_words(one), one.officer,
             ages.get(one.number, "-")) for one in proposals]


def section(run: Run, title: str, heads: Sequence[str], rows: Rows, is_grouped: bool) -> None:
    """A table below its title, the files of an upload together; without a terminal the title's
    first word begins each line."""
    if rows and run.terminal.wide:
        run.terminal.say(f"{title}: {len(rows)}")
        run.terminal.table(heads, grouped(rows, 1, 2) if is_grouped else rows, 1, "")
    elif rows:
        begin = (title.split(" ")[0].lower(), heads[0].lower())
        run.terminal.table(heads, [(*begin, *row) for row in rows], 0, "")
    elif title == WAITS and run.terminal.wide:
        run.terminal.note("Nothing waits for you.")


def inbox(run: Run) -> None:
    me = me_of(run.desk)
    noticed(run, me)
    found = waiting_of(run.desk)
    if run.words.json:
        run.print_json({"proposals": found.proposals, "requests": found.requests})
        return
    if me.role == "officer":
        officers(run, [shaped(Counts, one) for one in found.proposals],
                 [shaped(Counts, one) for one in own_proposals(run.desk, me)])
    else:
        requesters(run, me, [shaped(Request, one) for one in found.requests])


def officers(run: Run, others: Sequence[Counts], own: Sequence[Counts]) -> None:
    calls = last_calls(run.desk) if others or own else []
    ages, names = ages_in(calls), {}
    if run.terminal.wide:
        reasons, told = reasons_in(calls), names_of(run.desk, [*others, *own])
        names = {one.number: with_reason(told.get(one.number) or counts_words(one),
                                         reasons.get(one.number, [])) for one in [*others, *own]}
    heads = ("PROPOSAL", "NAMES", "BY", "AGE")
    section(run, WAITS, heads, proposal_rows(others, ages, names), False)
    section(run, OWN, heads, proposal_rows(own, ages, names), False)


def requesters(run: Run, me: Me, requests: Sequence[Request]) -> None:
    heads = ("REQUEST", "TITLE", "BY", "STATE", "TODAY")
    rows = request_rows(run, requests)
    section(run, WAITS, heads, [row for row in rows if row[2] != me.name], True)
    section(run, OWN, heads, [row for row in rows if row[2] == me.name], True)
