"""The commands that read: get, minutes, people, report; and one's own: token, pending."""
from __future__ import annotations

import contextlib
import fcntl
import hashlib
import os
import secrets
import stat
import sys

from ..answers import me_of
from ..faults import REFUSED, Stop, reason, wrong
from ..files import fresh, write_all
from ..http import BYTES, TEXT, not_a_desk
from ..minutes import copy_of, first_other, minute_parts, minutes_from
from ..words import counted, printable
from .run import Run


def people(run: Run) -> None:
    answer = run.desk.get("/people")
    found = answer.json()
    if not isinstance(found, list) or not all(isinstance(one, dict) for one in found):
        raise not_a_desk(answer)
    if run.words.json:
        run.print_json(found)
        return
    rows = [(one.get("name"), one.get("role")) for one in found]
    run.terminal.table(("NAME", "ROLE"), rows, 0, "Nobody is known.")


def me(run: Run) -> None:
    found = me_of(run.desk)
    if run.words.json:
        run.print_json({"name": found.name, "role": found.role})
        return
    run.terminal.say(f"{printable(found.name)} {printable(found.role)}")


def report(run: Run) -> None:
    run.terminal.data(run.desk.get("/report").of_type(TEXT).data())


def get(run: Run) -> None:
    what, into = run.words.what, run.words.output
    if not into and what != "level" and run.terminal.wide:
        wrong(f"{what} is no text for a terminal",
              f"Give -o FILE: deskctl get {what} -o {what}.esl")
    data = run.desk.get(f"/{what}").of_type(TEXT if what == "level" else BYTES).data()
    if into and into != "-":
        fresh(into, data)
        run.terminal.note(
            f"{printable(into)}: {len(data):,} bytes, SHA-256 {hashlib.sha256(data).hexdigest()}")
    else:
        run.terminal.data(data)


def append(file: int, data: bytes) -> None:
    """Appends all of it, or leaves the file as it was."""
    size = os.fstat(file).st_size
    try:
        write_all(file, data)
        os.fsync(file)
    except BaseException:
        # Where that fails too, a later run finds the cut line.
        with contextlib.suppress(OSError):
            os.ftruncate(file, size)
        raise


def minutes_into(run: Run, path: str) -> None:
    """Appends what a copy lacks. Each of its lines has to be the desk's."""
    try:
        opened = os.open(path, os.O_WRONLY | os.O_CREAT | os.O_APPEND | os.O_CLOEXEC, 0o600)
    except OSError as error:
        wrong(f"{path}: {reason(error)}")
    with os.fdopen(opened, "ab", buffering=0) as file, open(path, "rb") as copy:
        fcntl.flock(file, fcntl.LOCK_EX)
        has = copy_of(copy)
        if has.odd:
            wrong(f"{path}: line {has.odd} isn't the minutes' line {has.odd}",
                  "Name a copy of a desk's minutes, or a new file.")
        added, at, first = 0, has.count + 1, max(has.count, 1)
        other = first_other(run.desk, copy, has.count)
        data = b"" if other else minutes_from(run.desk, first)
        if other or not data.startswith(has.last + has.rest):
            raise Stop(REFUSED, f"the desk's minutes aren't those of {path}: they differ at line"
                       f" {other or first}",
                       ("It is another desk, or was restored from an older copy. Publish nothing"
                        " from it before that is cleared up."))
        data = data[len(has.last):]
        while data:
            append(file.fileno(), data[len(has.rest):] if not added else data)
            added += data.count(b"\n")
            at = has.count + added + 1
            data = minutes_from(run.desk, at) if at <= 9_999_999 else b""
    run.terminal.note(f"{printable(path)}: {counted(at - 1, 'call')}, {added:,} of them new")


def minutes(run: Run) -> None:
    if run.words.into:
        minutes_into(run, run.words.into)
        return
    for data in minute_parts(run.desk):
        run.terminal.data(data)


def token(run: Run) -> None:
    """A new token. Only its owner's file gets it; what is printed is its SHA-256."""
    into = run.words.output
    made = "desk_" + secrets.token_urlsafe(32)
    line = (made + "\n").encode()
    if into:
        try:
            with os.fdopen(
                    os.open(into, os.O_WRONLY | os.O_CREAT | os.O_EXCL | os.O_CLOEXEC, 0o600),
                    "wb") as file:
                file.write(line)
        except OSError as error:
            wrong(f"{into}: {reason(error)}", "A token is written into a new file, over none.")
        run.terminal.say(hashlib.sha256(made.encode()).hexdigest())
        return
    found = os.fstat(sys.stdout.fileno())
    if run.terminal.wide:
        wrong("a token isn't for a terminal", "deskctl token > FILE, or deskctl token -o FILE")
    if stat.S_ISREG(found.st_mode):
        if found.st_size:
            wrong("the file has something in it already", "A token is a file's first line.")
        os.fchmod(sys.stdout.fileno(), 0o600)
    run.terminal.data(line)
    run.terminal.flush()
    run.terminal.warn(hashlib.sha256(made.encode()).hexdigest())


def pending(run: Run) -> None:
    found = run.journal.pending()
    if run.words.json:
        run.print_json(found)
        return
    rows = [(one.get("since"), one.get("desk"), one.get("what")) for one in found]
    run.terminal.table(("SINCE", "DESK", "COMMAND"), rows, 2, "Every command has its answer.")
    if rows:
        run.terminal.note("Each goes on, with its key, when the same command is run again.")
