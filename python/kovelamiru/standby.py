"""desk-standby: a copy of a desk that follows its minutes.

`desk follow`, which is proved, takes each line or refuses it; the file of minutes gets those that
it took.
"""
from __future__ import annotations

import argparse
import contextlib
import hashlib
import os
import re
import subprocess
import sys
from collections import deque
from typing import Any, BinaryIO, Iterator, Optional

from .checkpoints import (
    NAME, PUBLISHED, WITNESSED, Checkpoint, checkpoint_of, key_in, signed_at, sum_of)
from .faults import DONE, REFUSED, NoAnswer, Stop, Unreadable, broken, wrong
from .files import write_all
from .minutes import copy_of
from .programs import audited, public_line, signature, unsigned_by
from .reader import Reader, add_reader, ended, has_reader
from .words import tell

PIECE = 1 << 20
# So many bytes of new lines are followed at once, or a little more.
MOST_NEW = 64 << 20
# How often dbx, db and the level are asked for if calls come meanwhile.
ROUNDS = 3

ABOUT = """\
Fetches the lines of the desk's minutes that MINUTES lacks, gives all of them to
`desk follow DB OWNER -`, and appends to MINUTES those that it took: DB becomes a desk with the same
minutes, dbx, db and level. Each line is one commit, and after a stop at any moment the next run
goes on. Both files are this desk's alone: in them are notes, open proposals and SHA-256 of tokens.

  desk-standby desk.db minutes.txt --owner OWNER --url https://people.desk.example.org:8443 \\
      --ca /etc/ssl/certs/desk-ca.pem --cert standby.pem --cert-key standby.key

Without --ca whoever has a certificate that the system trusts may answer, and lines that the rules
allow, such as a new officer's, are followed.

The run ends with `desk-standby: refused RULE` where

  minutes     one of the last 1,000 lines of MINUTES isn't the desk's, or it has fewer than DB
  47 Minute   a new line isn't what the rules give, or DB has another one; those before it are kept
  dbx         the desk shows another one than its minutes give, as one that was restored from an
              older copy may; so with db and level
  checkpoint  the minutes aren't those of --checkpoint, or are fewer
  witness     they don't begin with what --sign signed last

Nobody calls the desk in DB until the one that serves is lost.
"""
MORE = """\
The way back: first find out which desk is right, by a mirror's checkpoint or whoever else has
minutes. If it is the one that answers, move DB, DB-wal and MINUTES away, keep them, and run again:
both are made anew. If not, it serves another history than it did: runbooks/restore.md.

--checkpoint and --checkpoint-key hold all lines against what was published (AUDIT.md). Where none
can be had, or the key didn't sign it, a line on standard error says so, and following goes on.

With --sign and --statement this machine is a witness: FOLDER gets checkpoint.txt, of the lines that
`desk follow` took and of the lists that follow from them, and checkpoint.txt.sig (namespace
kovelamiru-witness), which `desk-publish --witnesses` publishes.

Exit status: 0 DB has all lines; 1 refused; 2 wrong words; 3 a file, the connection or a program
failed
"""


def refused(rule: str, text: str) -> Stop:
    return Stop(REFUSED, f"refused {rule}: {text}")


class Copied:
    """The file of minutes, and the desk's file that follows it."""

    def __init__(self, words: argparse.Namespace, desk: Reader, file: BinaryIO):
        self.words, self.desk, self.file = words, desk, file
        has, path = copy_of(file), words.minutes
        begun = has.count or not has.rest or has.rest[:2] == b"1\t"[:len(has.rest)]
        if has.odd or not begun:
            wrong(f"{path} isn't minutes: its line {has.odd or 1} doesn't begin with its number")
        self.count, self.end, self.lasts = has.count, has.end, has.lasts

    def begins(self) -> None:
        """The desk has the last lines, as many as it shows at once: after a failover callers repeat
        what was lost in another order, and then one line alone may be the same. A stopped run or a
        power cut may have left more behind them."""
        self.held(self.lasts, self.count, f" of {self.words.minutes}")
        self.file.truncate(self.end)

    def held(self, lasts: deque[bytes], count: int, where: str) -> None:
        """The desk shows these lines, the last of so many."""
        first = count - len(lasts) + 1
        shown = self.desk.lines_from(first).splitlines(keepends=True) if lasts else []
        for number, line in enumerate(lasts, first):
            if shown[number - first:number - first + 1] != [line]:
                raise refused("minutes", f"line {number}{where} isn't the desk's: another desk, or"
                              " an older copy of it")

    def lines(self, new: bytes = b"") -> Iterator[bytes]:
        """Those of the file, and new ones."""
        self.file.seek(0)
        # (no `yield from`: where that is left, it closes the file)
        for line in self.file:
            yield line
        yield from new.splitlines(keepends=True)

    def fetched(self) -> tuple[bytes, bool]:
        """Lines that the file lacks, and whether these are all."""
        found: list[bytes] = []
        size = 0
        number = self.count + 1
        while size < MOST_NEW:
            lines = self.desk.lines_from(number)
            if not lines:
                return b"".join(found), True
            found.append(lines)
            number, size = number + lines.count(b"\n"), size + len(lines)
        return b"".join(found), False

    def followed(self, new: bytes) -> tuple[int, str, str]:
        """What becomes of `desk follow` with the file's lines and these: status and outputs."""
        words = [self.words.program, "follow", self.words.db, self.words.owner, "-"]
        pipe: Any = subprocess.PIPE
        try:
            process = subprocess.Popen(words, stdin=pipe, stdout=pipe, stderr=pipe)
        except OSError as error:
            broken(f"{words[0]}: {error.strerror}")
        assert process.stdin
        with contextlib.suppress(BrokenPipeError):
            self.file.seek(0)
            while piece := self.file.read(PIECE):
                process.stdin.write(piece)
            process.stdin.write(new)
        out, err = process.communicate()
        if process.returncode < 0:
            broken(f"{words[0]} follow: signal {-process.returncode} ended it")
        return process.returncode, out.decode(), err.decode(errors="replace").strip()

    def taken(self, new: bytes) -> str:
        """What `desk follow` tells of all lines. The file gets those that it took."""
        status, told, said = self.followed(new)
        at = re.match("refused 47 Minute at ([0-9]+)$", said)
        if status == REFUSED and at:
            some = new.splitlines(keepends=True)[:max(int(at[1]) - self.count - 1, 0)]
            self.append(b"".join(some))
        if status:
            raise Stop(status, said)
        self.append(new)
        if not told.startswith(f"calls {self.count}\n"):
            raise refused("minutes", f"the desk has {self.count} calls, and {self.words.db} more:"
                          " an older copy of the desk")
        return told

    def append(self, new: bytes) -> None:
        self.file.seek(self.end)
        self.file.write(new)
        self.file.flush()
        os.fsync(self.file.fileno())
        self.count, self.end = self.count + new.count(b"\n"), self.end + len(new)

    def caught_up(self, check: Optional[Checkpoint]) -> str:
        """Fetches and follows all there is. The lines are held against the checkpoint first."""
        whole = False
        told = ""
        while not whole:
            new, whole = self.fetched()
            count = self.count + new.count(b"\n")
            lasts = self.lasts.copy()
            lasts.extend(new.splitlines(keepends=True))
            if new:
                # (one desk answered all of this: none took its name meanwhile)
                self.held(lasts, count, ", fetched in this run,")
            if check and (whole or check.calls <= count):
                if sum_of(self.lines(new), check.calls) != check.minutes:
                    raise refused("checkpoint", f"{count} calls don't begin with the {check.calls}"
                                  " that were published: an older copy of the desk, or another")
            told = self.taken(new)
            self.lasts = lasts
        return told

    def compared(self, told: str) -> bool:
        """Whether the lists that the desk shows are those of its minutes; none if calls came."""
        sums = dict(line.split(" ") for line in told.splitlines())
        shown = {name: hashlib.sha256(self.desk.get(f"/{name}")).hexdigest()
                 for name in ("dbx", "db", "level")}
        if self.desk.lines_from(self.count + 1):
            return False
        for name, value in shown.items():
            if sums.get(name) != value:
                raise refused(name, f"the desk shows {value}, and its minutes give"
                              f" {sums.get(name)}: an older copy of the desk, or another one")
        return True


def published(words: argparse.Namespace) -> Optional[Checkpoint]:
    """The checkpoint that is published, if the key signed it."""
    if not words.checkpoint:
        return None
    try:
        found = signed_at(words.checkpoint, key_in(words.checkpoint_key), PUBLISHED, words.ca,
                          "desk-standby")
    except (NoAnswer, Unreadable) as fault:
        tell(f"desk-standby: nothing is held against {words.checkpoint}: {fault}")
        return None
    if found.owner != words.owner.lower():
        raise refused("checkpoint", f"{words.checkpoint} is of another owner's desk")
    return found


# ---- a witness


def put(path: str, data: bytes) -> None:
    """A whole file for everybody, on the disk."""
    opened = os.open(f"{path}.new", os.O_WRONLY | os.O_CREAT | os.O_TRUNC | os.O_CLOEXEC, 0o644)
    with os.fdopen(opened, "wb"):
        os.fchmod(opened, 0o644)
        write_all(opened, data)
        os.fsync(opened)
    os.rename(f"{path}.new", path)


def testified(words: argparse.Namespace, copied: Copied, told: str) -> None:
    """Signs what `desk follow` reached, if it goes on from what was signed last."""
    path = os.path.join(words.statement, NAME)
    sums = dict(line.split(" ") for line in told.splitlines())
    shim = hashlib.sha256(audited(words.program, words.owner, words.minutes, "shim")).hexdigest()
    text = Checkpoint(words.owner.lower(), copied.count, sums["minutes"], sums["dbx"], shim,
                      sums["db"], sums["level"]).text()
    if os.path.exists(path):
        with open(path, "rb") as file:
            last = file.read()
        try:
            before = checkpoint_of(last)
        except Unreadable as fault:
            broken(f"{path}: {fault}")
        if before.owner != words.owner.lower() or (
                sum_of(copied.lines(), before.calls) != before.minutes):
            raise refused("witness", f"these {copied.count} calls don't go on from the"
                          f" {before.calls} that {path} has")
        if last == text and os.path.exists(f"{path}.sig"):
            with open(f"{path}.sig", "rb") as file:
                if not unsigned_by(public_line(words.sign), WITNESSED, file.read(), text):
                    return
    # (what was signed is on the disk before anybody has the signature)
    sign = signature(words.sign, WITNESSED, text)
    put(path, text)
    put(f"{path}.sig", sign)


def words_of(arguments: list[str]) -> argparse.Namespace:
    parser = argparse.ArgumentParser(prog="desk-standby", description=ABOUT, epilog=MORE,
                                     formatter_class=argparse.RawDescriptionHelpFormatter,
                                     allow_abbrev=False)
    parser.add_argument("db", metavar="DB", help="the standby's file, made by the first run")
    parser.add_argument("minutes", metavar="MINUTES", help="the minutes, as fetched so far")
    parser.add_argument("--owner", required=True, metavar="GUID",
                        help="the owner that `desk init` was given")
    parser.add_argument("--url", required=True,
                        help="the desk that serves, as https://desk.example.org")
    add_reader(parser)
    for name, metavar, text in (
        ("--checkpoint", "URL", "a mirror's checkpoint.txt, or a file"),
        ("--checkpoint-key", "FILE", "the public SSH key that signed it"),
        ("--sign", "KEY", "the SSH key of a witness; with --statement"),
        ("--statement", "FOLDER", "where what it signed stands")):
        parser.add_argument(name, metavar=metavar, help=text)
    parser.add_argument("--program", default="desk", help="desk(1)")
    words = parser.parse_args(arguments)
    has_reader(parser, words)
    for one, other in (("checkpoint", "checkpoint_key"), ("sign", "statement")):
        if bool(getattr(words, one)) != bool(getattr(words, other)):
            parser.error(f"--{one} and --{other.replace('_', '-')} go together")
    return words


def kept_up(words: argparse.Namespace) -> int:
    desk = Reader(words, "desk-standby")
    opened = os.open(words.minutes, os.O_RDWR | os.O_CREAT | os.O_CLOEXEC, 0o600)
    with open(opened, "r+b") as file:
        copied = Copied(words, desk, file)
        check = published(words)
        copied.begins()
        for _ in range(ROUNDS):
            told = copied.caught_up(check)
            check = None
            if copied.compared(told):
                break
        else:
            tell("desk-standby: calls came all the time: dbx, db and the level weren't compared")
        if words.sign:
            testified(words, copied, told)
        tell(told.rstrip("\n"), sys.stdout)
    return DONE


def main() -> int:
    os.umask(0o077)
    words = words_of(sys.argv[1:])
    return ended("desk-standby", f"{words.minutes}.lock", "following", lambda: kept_up(words))
