"""desk-publish: what a desk decided, put where mirrors fetch it, or refused.

It trusts the disk, `desk audit`, which derives dbx, db and the level from the minutes, and
ssh-keygen(1). Of the desk that it asks, it trusts nothing that these rules look at.
"""
from __future__ import annotations

import argparse
import os
import shutil
import sys
import time
from typing import Any

from ..faults import DONE, broken, wrong
from ..reader import Reader, add_reader, ended, has_reader
from ..words import tell
from .desk import Found, from_file, from_url
from .folder import current, filled, hidden, linked, named, published, settled, swept
from .rules import judged
from .sums import day
from .witness import witnessed

ABOUT = """\
Reads the minutes, dbx, db and the level of a desk, and publishes them: FOLDER becomes a link to a
new folder beside it, by one rename, so a reader finds the old files or the new ones. The new folder
has

  dbx.esl, db.esl, level.csv   what `desk dbx`, `desk db` and `desk level` write
  shim-dbx.esl                 what dbx revokes, in the form that shim reads, as
                               `desk audit` writes it; held against dbx once more
  audit.txt                    the lines of `desk audit`: `calls N`, then SHA-256
  audit-db.txt                 only while a change of db waits for consent: the lines of
                               the first calls, from which db.esl follows
  checkpoint.txt               the owner, the calls and the SHA-256 of the minutes and
                               of what follows from them, to be kept (AUDIT.md); with
                               --key checkpoint.txt.sig
  index.html, dbx.json         for people and for programs, and not proved: the
                               level, what dbx and db have, what came since the last time
  dbx.auth, db.auth            what the signing command made, if one is named
  witness-NAME.txt             with --witnesses, what each signed, and .sig
  SHA256SUMS                   of all of these; above them calls, date and folder
  SHA256SUMS.sig               its signature, with --key
  minutes.txt                  for this user alone, unless --public-minutes; its
                               SHA-256 is in audit.txt

A mirror fetches FOLDER/SHA256SUMS, then each file from the folder that it names, since the link may
change meanwhile; and then

  ssh-keygen -Y verify -f SIGNERS -I NAME -n kovelamiru-publish \\
      -s SHA256SUMS.sig < SHA256SUMS && sha256sum -c SHA256SUMS

where SIGNERS has a line `NAME KEY`, KEY being the public one. It takes no fewer calls and no
earlier date than it had.

Nothing is published, and the line on standard error begins with `desk-publish: refused RULE`, where

  audit       `desk audit` refuses the minutes, or what the desk exports doesn't follow from them
  minutes     they don't begin with those published last: an older copy of the desk, or another desk
  witness     they don't begin with those of which a mirror has the checkpoint, signed by --key
  dbx         it lacks an entry that was published
  level       a generation or the stamp is below the published one
  shim        shim-dbx.esl, read again, doesn't revoke what dbx does
  signature   the signing command failed; or firmware wouldn't take what it made: it doesn't end
              with the list, its time isn't after that of the update before, or is ahead of the
              clock; or no key of --kek signed it for that variable
"""
MORE = """\
FOLDER alone shows an older copy of a desk, but not one that was restored together with it: that
takes --witness, the checkpoint.txt of a mirror, with its checkpoint.txt.sig beside it. One that
--key didn't sign, or that isn't there, stops nothing, and standard error says so.

A changed --key publishes, as does a witness's new signature; other options alone don't: --sign
takes effect with the next call. Once --public-minutes is left out, nobody else can read minutes.txt
in any folder, though index.html still names it until the next publication; given again, the option
holds from the next publication on.

The signing command is run as COMMAND NAME LIST OUT for `dbx` and for `db`, unless the list is
empty: it writes OUT, an authenticated update of that variable, in a folder of its own, of which
nothing else is taken. It has two minutes. With efitools it is a script of two lines, with whole
paths:

  #!/bin/sh
  exec sign-efi-sig-list -c /etc/KEK.crt -k /etc/KEK.key "$1" "$2" "$3"

A witness is whoever runs `desk-standby --sign KEY --statement FOLDER`, and shows that folder:
WHERE is its checkpoint.txt, a URL or a file, and KEY its public SSH key. The signature says that
its own `desk follow` reached these very minutes, which go on from what it signed before, and that
these lists follow from them: who has this machine and --key can't show another list without it. A
publication waits for no witness: what one signs later, of this checkpoint or of a later one with
the same lists, is added by the next run. Whoever wants so many signatures asks for them
(kovelamiru-mirror -k).
With a line `NAME KEY` for each in WITNESSES, whoever has a published folder checks

  ssh-keygen -Y verify -f WITNESSES -I NAME -n kovelamiru-witness \\
      -s witness-NAME.txt.sig < witness-NAME.txt

The file of consent has one line, `HEX CALLS NAME`: the SHA-256 of the new db.esl, the number of the
call that changed db last, and the officer who looked at it. So it is for one change. Without it all
else is published, with the db that was consented to last, and standard error prints the line. The
officer signs it, which makes FILE.sig:

  ssh-keygen -Y sign -f ~/.ssh/id_ed25519 -n kovelamiru-consent FILE

The file --signers has a line `NAME KEY` for each officer, KEY being the public one; nobody but root
or this user may write it. Whoever listed or unlisted an entry since the last publication can't be
the one.

Over HTTP the token is that of an officer, since the minutes are shown to officers alone: of one for
this alone. A site may keep that token and let this machine read by its certificate (--cert): a
machine that is lost then gives nobody an officer's token. A new desk begins with --first; without
it, a FOLDER that isn't there is a fault, so that a disk that isn't mounted doesn't switch the rules
off.

Exit status: 0 published, or nothing new; 1 refused; 2 wrong words; 3 a file, the connection or a
program failed
"""


def asked(words: argparse.Namespace) -> Found:
    """The desk, in a file or at its URL."""
    if words.db:
        return from_file(words.program, words.db)
    return from_url(Reader(words, "desk-publish"))


def publish(words: argparse.Namespace, link: str) -> str:
    if os.path.lexists(link) and not os.path.islink(link):
        wrong(f"{link} isn't a link that desk-publish made")
    last = published(link) if os.path.islink(link) else None
    if last is None and not words.first:
        broken(f"{link} isn't there: the first publication takes --first")
    swept(link, words.keep)
    if not words.public_minutes:
        hidden(link)
    found = asked(words)
    witnessed(words, last, found)
    found, waits = judged(words, last.found if last else None, found)
    if waits:
        tell(f"desk-publish: db stays as of call {found.db_calls}: {waits}")
    # (as late as the last one at least, whatever the clock says)
    clock = int(time.time())
    now = max(clock, last.date if last else 0)
    if now > clock + 86400:
        tell(f"desk-publish: what is published has the date {day(now)}, ahead of this clock: until"
              " then --renew does nothing")
    if last and last.found == found and (
            not words.renew or now - last.date < words.renew * 3600) and settled(words, link):
        return f"calls {found.calls}: nothing new"
    if os.path.basename(named(link, now, found)) == current(link):
        # (the same calls within the same second)
        now += 1
    whole = named(link, now, found)
    new = f"{link}.new"
    os.mkdir(new, 0o700)
    try:
        filled(words, link, whole, now, found, last)
    except BaseException:
        shutil.rmtree(new)
        raise
    linked(link, whole)
    swept(link, words.keep)
    return f"calls {found.calls}: published in {whole}"


# The options but for those that say where the desk is, and who reads it.
OPTIONS: tuple[tuple[str, dict[str, Any]], ...] = (
    ("--sign", {"metavar": "COMMAND", "help": "makes an authenticated update of each list"}),
    ("--kek", {"metavar": "FILE", "help": "the certificates of which one signs each update, in PEM;"
               " with --sign, and openssl(1)"}),
    ("--consent", {"metavar": "FILE", "help": "a change of db takes a second officer's line, signed"
                   " in FILE.sig; with --signers"}),
    ("--signers", {"metavar": "FILE", "help": "whose keys sign consent: lines `NAME KEY`"}),
    ("--key", {"metavar": "FILE", "help": "the SSH key that signs SHA256SUMS"}),
    ("--witness", {"metavar": "URL", "action": "append", "default": [],
                   "help": "checkpoint.txt as a mirror has it, or a file; with --key; may be"
                   " repeated"}),
    ("--witnesses", {"metavar": "FILE", "help": "who follows the desk and signs its checkpoint:"
                     " lines `NAME WHERE KEY`"}),
    ("--renew", {"metavar": "HOURS", "type": int, "default": 0,
                 "help": "publish again, with a new date, what is so old"}),
    ("--first", {"action": "store_true", "help": "FOLDER isn't there yet"}),
    ("--public-minutes", {"action": "store_true", "help": "everybody may read the minutes: notes,"
                          " open proposals, SHA-256 of tokens"}),
    ("--public-reasons", {"action": "store_true", "help": "index.html has the reasons of what was"
                          " confirmed since the last time, without names"}),
    ("--keep", {"metavar": "N", "type": int, "default": 10, "help": "how many folders stay (10)"}),
    ("--program", {"default": "desk", "help": "desk(1)"}))


def words_of(arguments: list[str]) -> argparse.Namespace:
    parser = argparse.ArgumentParser(prog="desk-publish", description=ABOUT, epilog=MORE,
                                     formatter_class=argparse.RawDescriptionHelpFormatter,
                                     allow_abbrev=False)
    parser.add_argument("folder", metavar="FOLDER",
                        help="what mirrors fetch: a link that this makes")
    parser.add_argument("--owner", required=True, metavar="GUID",
                        help="the owner that `desk init` was given")
    where = parser.add_mutually_exclusive_group(required=True)
    where.add_argument("--url",
                       help="the desk, as https://desk.example.org, or http://127.0.0.1:880")
    where.add_argument("--db", metavar="DB", help="the file of a desk that isn't served")
    add_reader(parser)
    for name, more in OPTIONS:
        parser.add_argument(name, **more)
    words = parser.parse_args(arguments)
    if words.url:
        has_reader(parser, words)
    if words.sign and "/" in words.sign:
        words.sign = os.path.abspath(words.sign)
    if bool(words.consent) != bool(words.signers):
        parser.error("--consent and --signers go together")
    if words.kek and not words.sign:
        parser.error("--kek goes with --sign")
    if words.witness and not words.key:
        parser.error("--witness takes --key: a checkpoint that nobody signed is anybody's")
    if words.keep < 2:
        parser.error("--keep is 2 at least: readers may still be in the last one")
    return words


def main() -> int:
    os.umask(0o077)
    words = words_of(sys.argv[1:])
    link = os.path.abspath(words.folder)

    def work() -> int:
        tell(publish(words, link), sys.stdout)
        return DONE

    return ended("desk-publish", f"{link}.lock", "publishing", work)
