"""The command verdict, and what bars an image or doesn't list it."""
from __future__ import annotations

from typing import Any, Optional, Sequence

from ..answers import said_number
from ..faults import DONE, NOT_ALLOWED, REFUSED, WORDS, Causes, Refused, Stop, explained
from ..files import IMAGE_LIMIT, looks_like, read_file
from ..http import Call
from ..pkcs7 import issuer_names, signatures_of
from ..questions import carried_question, rule_words
from ..standing import Standing, level_of, lows_of, standing_of
from ..words import printable
from .images import facts_of
from .run import CALLERS, Run


def body_causes(path: str, data: bytes) -> Causes:
    """What may be said here of an image that the desk can't read."""
    looks = looks_like(data)
    return {
        number: lambda _: [] if data.startswith(b"MZ") else [f"{path} is {looks}."]
        for number in range(1, 10)}


def verdict_causes(run: Run, path: str, data: bytes) -> list[str]:
    """What bars an image: by the desk's verdict; one that isn't listed is barred by a component, if
    not by its digests."""
    verdict = run.desk.ask(Call("POST", "/verdict", data)).object()
    if verdict.get("verdict") != "not-listed":
        return [f"By what: {rule_words(verdict)}."]
    lows = lows_of(level_of(run.desk)[1], facts_of(run, path).components)
    return [f"By what: {rule_words(low)}." for low in lows]


ISSUER_LISTED = "its signer's issuer is listed; the desk compares what the image carries"


class Issuers:
    """Whether the issuer of an image's signer is listed: the lists are read once."""
    def __init__(self, run: Run):
        self.run = run
        self.now: Optional[Standing] = None

    def words(self, data: bytes) -> str:
        """ISSUER_LISTED of an image whose signer's issuer is listed, by their names."""
        names = issuer_names(signatures_of(data))
        if not names:
            return ""
        return ISSUER_LISTED if any(map(self.standing().named, names)) else ""

    def doubts(self, path: str, data: bytes) -> list[str]:
        """Of an allowed image, where no signature says that it is by a listed signer."""
        doubt = carried_question(signatures_of(data), self.standing())
        return [f"{printable(path)}: {doubt}"] if doubt else []

    def standing(self) -> Standing:
        self.now = self.now or standing_of(self.run.desk)
        return self.now


def carried_words(run: Run, path: str, data: bytes) -> list[str]:
    carried = facts_of(run, path).carried
    if not carried:
        return ["It carries no certificate: it isn't signed."]
    words = Issuers(run).words(data)
    return [
        f"It carries {certificate} (the SHA-256 of the TBSCertificate)."
        for certificate in carried] + ([f"By name {words}."] if words else [])


def verdict_of(run: Run, path: str, data: bytes) -> dict[str, Any]:
    try:
        found = run.desk.ask(Call("POST", "/verdict", data)).object()
    except Refused as refused:
        refused.more.append(f"The file: {path}")
        raise explained(refused, body_causes(path, data)) from None
    if "verdict" not in found:
        said_number(found, "verdict")
    return found


def show_verdicts(run: Run, rows: Sequence[tuple[str, str, str]], told: Sequence[str]) -> None:
    run.terminal.table(("VERDICT", "WHY", "FILE"), rows, 2, "")
    for line in told:
        run.terminal.note(line)
    if any(row[0] == "allowed" for row in rows):
        run.terminal.note(
            "allowed: by its digest or a certificate that it carries; no signature was checked.")


Rows = list[tuple[str, str, str]]


def judge(run: Run, path: str, issuers: Issuers, rows: Rows, told: list[str]) -> None:
    """Adds the row of a file, and what else is told of it."""
    data = read_file(path, IMAGE_LIMIT, "an image has")
    found = verdict_of(run, path, data)
    rows.append((found["verdict"], rule_words(found), path))
    if run.words.json:
        run.print_json(found)
    elif found["verdict"] == "not-listed" and issuers.words(data):
        told.append(f"{printable(path)}: {ISSUER_LISTED}.")
    elif found["verdict"] == "allowed":
        told += issuers.doubts(path, data)


def verdict(run: Run) -> int:
    """A row a file, and the worst status. Of several files one that can't be judged has its row,
    too; the verdicts that came are shown, whatever ends the run."""
    rows: Rows = []
    told: list[str] = []
    issuers, statuses = Issuers(run), [DONE]
    try:
        for path in run.words.files:
            try:
                judge(run, path, issuers, rows, told)
            except Stop as stop:
                callers = isinstance(stop, Refused) and stop.number in CALLERS
                if stop.status not in (REFUSED, WORDS) or callers or len(run.words.files) == 1:
                    raise
                rows.append(("no verdict", str(stop), path))
                statuses.append(stop.status)
                run.terminal.stop(str(stop), stop.more)
    finally:
        if rows and not run.words.json:
            show_verdicts(run, rows, told)
    others = any(row[0] not in ("allowed", "no verdict") for row in rows)
    return NOT_ALLOWED if others else max(statuses)
