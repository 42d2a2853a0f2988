"""The commands of proposals: proposals, proposal, confirm, drop."""
from __future__ import annotations

from dataclasses import dataclass
from typing import Any, Callable, Optional, Sequence

from ..answers import Counts, Impact, Proposal, me_of, proposal_in, said_number, shaped
from ..described import WORDS
from ..doubts import Known, known, level_doubts
from ..faults import Refused, wrong
from ..http import Call
from ..proposals import DESCRIBED, counts_words, described
from ..questions import plain_question, rule_words
from ..reasons import Reason, reason_lines, reasons_in, reasons_of, with_reason
from ..search import proposal_matches
from ..standing import standing_of
from ..waiting import ages_in, last_calls
from ..words import KINDS, counted, kinds, printable
from .listing import List, show
from .reasons import causes_of, shown_proposal
from .run import Replies, Run, act


ALL = List("/proposals", "officer", proposal_matches, "of this number or officer",
           tuple(WORDS["proposals"]))


def proposal_row(value: dict[str, Any]) -> tuple[object, ...]:
    one = shaped(Counts, value)
    return one.number, one.state, one.digests, one.certificates, one.components, one.officer


def row_at_a_terminal(run: Run) -> Callable[[dict[str, Any]], tuple[object, ...]]:
    """How a row is made that says what an open proposal is, and how old."""
    now, calls, left = standing_of(run.desk), last_calls(run.desk), iter(range(DESCRIBED))
    ages, reasons = ages_in(calls), reasons_in(calls)

    def row(value: dict[str, Any]) -> tuple[object, ...]:
        one = shaped(Counts, value)
        is_open = one.state == "open" and next(left, None) is not None
        names = described(run.desk, one, now) if is_open else ""
        names = with_reason(names or counts_words(one), reasons.get(one.number, []))
        return one.number, names, one.officer, one.state, ages.get(one.number, "-")

    return row


def proposals(run: Run) -> None:
    if run.terminal.wide and not run.words.json:
        show(run, ALL, ("NUMBER", "NAMES", "OFFICER", "STATE", "AGE"), 1, row_at_a_terminal(run))
        return
    show(run, ALL, ("NUMBER", "STATE", "DIGESTS", "CERTIFICATES", "COMPONENTS", "OFFICER"), 5,
         proposal_row)


def impact_of(run: Run, number: int) -> dict[str, Any]:
    return run.desk.get(f"/proposals/{number}/impact").object()


def named_lines(run: Run, one: Proposal, about: dict[str, str],
                reasons: Sequence[Reason]) -> list[str]:
    """The desk, the reasons, and all that a proposal names, an entry a line."""
    lines = [(f"proposal {one.number} of {printable(one.officer)}: {printable(one.kind)},"
              f" {printable(one.state)}"), f"  desk        {run.desk.where}"]
    lines += [f"  expect      {one.tag()}"] if one.state == "open" else []
    lines += [f"  why         {printable(line)}" for line in reason_lines(reasons)]
    if one.stamp:
        lines.append(f"  stamp       {one.stamp}")
    for name, entries in (("digest", one.digests), ("certificate", one.certificates)):
        lines += [
            f"  {name:<11} {printable(entry)}  {about.get(entry, '')}".rstrip()
            for entry in entries]
    lines += [
        f"  component   {printable(name)} {generation}" for name, generation in one.components]
    if one.passed:
        lines.append(
            f"  skipped     {counted(one.passed, 'entry', 'entries')} of kinds that the desk hasn't"
        )
    return lines


def impact_lines(impact: Impact) -> list[str]:
    adds = impact.adds
    lines = [f"A Confirm adds {kinds(adds)}; dbx then has {impact.dbx:,} bytes."]
    for one in impact.bars:
        now_ = "ALLOWED NOW" if one.get("allowed") else "not allowed now"
        lines.append(
            f"  bars request {one.get('request')} ({printable(one.get('file'))},"
            f" {printable(one.get('state'))}, of {printable(one.get('submitter'))}), {now_}:"
            f" {printable(rule_words(one.get('by') or {}, True))}; {printable(one.get('title'))}"
        )
    allowed = sum(bool(one.get("allowed")) for one in impact.bars)
    lines.append(
        f"It bars {counted(len(impact.bars), 'known image')}, {allowed} of them allowed now.")
    return lines


def proposal(run: Run) -> None:
    number = run.words.number
    value = shown_proposal(run, number)
    one = proposal_in(value)
    impact, lines = foreseen(run, one)
    if run.words.json:
        run.print_json(value)
        if impact:
            run.print_json(impact)
        return
    found = known(run.desk, one.digests, one.certificates, one.components)
    for line in named_lines(run, one, found.about, reasons_of(run.desk, number)) + lines:
        run.terminal.say(line)
    own = own_doubts(run, one.officer) if one.state == "open" else []
    level = level_doubts_of(one, found) if lines else []
    for doubt in own + found.doubts + level:
        run.terminal.doubt(doubt)


def foreseen(run: Run, one: Proposal) -> tuple[Optional[dict[str, Any]], list[str]]:
    """What a Confirm of an open proposal does: the desk's answer, and lines of it. It may be that a
    Confirm is refused."""
    if one.state != "open":
        return None, []
    try:
        impact = impact_of(run, one.number)
    except Refused as refused:
        return refused.answer, [f"A Confirm would be {refused}.", *closing(one.number)]
    return impact, impact_lines(shaped(Impact, impact))


def closing(number: int) -> list[str]:
    return [f"As it stands it can't be confirmed; an officer closes it: deskctl drop {number}"]


@dataclass(frozen=True)
class Seen:
    """What an officer is shown before a Confirm: the desk's answers, what is doubtful, and why it
    was proposed."""

    proposal: dict[str, Any]
    impact: dict[str, Any]
    doubts: list[str]
    reasons: list[Reason]

    def bars(self) -> int:
        return len(shaped(Impact, self.impact).bars)

    def tag(self) -> str:
        return proposal_in(self.proposal).tag()


OWN_PROPOSAL = "You proposed it yourself: the desk takes the Confirm of another officer alone."


def own_doubts(run: Run, officer: str) -> list[str]:
    return [OWN_PROPOSAL] if me_of(run.desk).name == officer else []


def level_doubts_of(one: Proposal, found: Known) -> list[str]:
    return level_doubts(one.components, one.stamp, found.now.level, found.names)


def show_all(run: Run, value: dict[str, Any], one: Proposal) -> Seen:
    """Shows all that an open proposal names, and what a Confirm of it would do."""
    found = known(run.desk, one.digests, one.certificates, one.components)
    reasons = reasons_of(run.desk, one.number)
    for line in named_lines(run, one, found.about, reasons):
        run.terminal.warn(line)
    try:
        impact = impact_of(run, one.number)
    except Refused as refused:
        refused.more = closing(one.number)
        raise
    for line in impact_lines(shaped(Impact, impact)):
        run.terminal.warn(line)
    doubts = own_doubts(run, one.officer) + found.doubts + level_doubts_of(one, found)
    return Seen(value, impact, doubts, reasons)


def confirm_asks(run: Run) -> Optional[str]:
    """What a Confirm would do, and the question; the proposal's tag."""
    number, words = run.words.number, run.words
    value = shown_proposal(run, number)
    one = proposal_in(value)
    if one.state != "open":
        # The desk answers: the old reply to the old key, or ProposalClosed.
        return words.expect or one.tag()
    seen = show_all(run, value, one)
    if words.expect not in (None, one.tag()):
        wrong(f"proposal {number} of {run.desk.where} isn't the one that you looked at")
    if words.bars not in (None, seen.bars()):
        bars = counted(seen.bars(), "known image")
        wrong(f"proposal {number} bars {bars}, and not {words.bars}")
    if words.expect is None or words.bars is None or seen.doubts:
        confirm_question(run, seen)
    return one.tag()


def confirm_question(run: Run, seen: Seen) -> None:
    """Asks for the count of known images that it bars, or for a yes if that was given; what was
    shown has to stand when the answer comes."""
    number, count = run.words.number, str(seen.bars())
    begin = f"At {run.desk.where} nothing takes it back."
    word = "--yes" if seen.doubts else f"--expect {seen.tag()} --bars {count}"
    if run.words.bars is None:
        question, wanted = "To confirm, type how many known images it bars:", count
    else:
        question, wanted = "Confirm it? Type yes:", "yes"
    run.terminal.confirm(seen.doubts, f"{begin} {question}", wanted, word)
    if shown_proposal(run, number) != seen.proposal or impact_of(run, number) != seen.impact:
        wrong(f"what proposal {number} names or bars isn't what was shown; nothing was sent",
              f"Look at it again: deskctl proposal {number}")
    if reasons_of(run.desk, number) != seen.reasons:
        wrong(f"proposal {number} was explained meanwhile; nothing was sent",
              f"Look at it again: deskctl proposal {number}")


def confirm(run: Run) -> None:
    number = run.words.number
    call = Call("POST", f"/proposals/{number}/confirm", b"", (), "confirmed", f"confirm {number}")

    def show(replies: Replies) -> None:
        reply = replies[0]
        counts = {name: said_number(reply, name) for name in KINDS}
        run.terminal.say(f"proposal {number} confirmed: {kinds(counts, 'new ')}")
        if not any(counts.values()):
            run.terminal.note("It changed nothing: all that it names was in force.")

    act(run, [call], show, lambda _: confirm_asks(run), causes_of(number))


def drop_asks(run: Run, taken: bool) -> Optional[str]:
    """Whether it is meant; the tag of the proposal."""
    number = run.words.number
    value = None if taken else shown_proposal(run, number)
    if not taken:
        run.terminal.ask(plain_question("drop", number))
    return proposal_in(value).tag() if value else None


def drop(run: Run) -> None:
    number = run.words.number
    call = Call("POST", f"/proposals/{number}/drop", b"", (), "dropped", f"drop {number}")
    act(run, [call], lambda _: run.terminal.say(f"proposal {number} dropped"),
        lambda taken: drop_asks(run, taken), causes_of(number))
