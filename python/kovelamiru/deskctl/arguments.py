"""Arguments: how each is read, the options of all commands, exit statuses in words."""
from __future__ import annotations

import argparse
import re
from dataclasses import dataclass
from typing import Any, Callable, Optional

from ..described import LIMITS
from ..desk import RETRIES
from ..faults import DONE, LOST, NOT_ALLOWED, REFUSED, WORDS
from ..words import HEX, printable
from .run import Run


def number_word(text: str) -> int:
    if not re.fullmatch(r"[1-9][0-9]{0,5}", text):
        raise argparse.ArgumentTypeError(f"{printable(text)} is no number of 1 to 999999")
    return int(text)


def stamp_word(text: str) -> int:
    if re.fullmatch(r"[1-9][0-9]{9}", text):
        return int(text)
    digits = re.sub(r"\D", "", text)
    like = f": {digits}01?" if len(digits) == 8 else ""
    raise argparse.ArgumentTypeError(
        f"{printable(text)} is no stamp; a stamp is ten digits, YYYYMMDDNN{like}")


def generation_word(text: str) -> int:
    most = LIMITS["generation"]
    if not re.fullmatch(r"[0-9]{1,10}", text) or not 1 <= int(text) <= most:
        raise argparse.ArgumentTypeError(f"{printable(text)} is no generation of 1 to {most}")
    return int(text)


def component_word(text: str) -> str:
    if not re.fullmatch(r"[!-+\--~]{1,128}", text):
        raise argparse.ArgumentTypeError(
            f"{printable(text)} is no component's name: 1 to 128 ASCII characters, no space, no"
            " comma")
    return text


def count_word(text: str) -> int:
    if not re.fullmatch(r"[0-9]{1,7}", text):
        raise argparse.ArgumentTypeError(f"{printable(text)} is no count")
    return int(text)


def hash_word(text: str) -> str:
    if not HEX.match(text):
        raise argparse.ArgumentTypeError(f"{printable(text)} isn't 64 hexadecimal digits")
    return text.lower()


def seconds_word(text: str) -> float:
    try:
        found = float(text)
    except ValueError:
        found = -1
    if not 0 <= found < 1e9:
        raise argparse.ArgumentTypeError(f"{printable(text)} is no number of seconds")
    return found


Word = tuple[tuple[str, ...], dict[str, Any]]


def word(*names: str, **more: Any) -> Word:
    return names, more


@dataclass(frozen=True)
class Command:
    """A command: what it is called with, whose it is, and what its help says."""

    name: str
    group: str
    usage: str
    does: str
    run: Callable[[Run], Optional[int]]
    words: tuple[Word, ...] = ()
    who: str = ""
    more: str = ""
    example: str = ""


OPTIONS: tuple[Word, ...] = (
    word("--url", metavar="URL", help="the desk: https://HOST or http://127.0.0.1:PORT (DESK_URL)"),
    word("--desk", metavar="NAME",
         help="the desk of this section of the settings, not of [desk] (DESKCTL_DESK)"),
    word("--token-file", metavar="FILE",
         help="your token, in a file that nobody else can read (DESK_TOKEN_FILE)"),
    word("--ca", metavar="FILE",
         help="trust the certificates of this file, not the system's (DESK_CA)"),
    word("--cert", metavar="FILE", help="a client certificate, in PEM (DESK_CERT)"),
    word("--key", metavar="FILE", help="its key, if it is apart (DESK_CERT_KEY)"),
    word("--name", metavar="NAME", help="whose is --mine, if it isn't what is yours (DESK_NAME)"),
    word("--program", metavar="FILE",
         help="take the digests of images from this program desk, not by HTTP (DESK_PROGRAM)"),
    word("--json", action="store_true", help="print the desk's own JSON"),
    word("--yes", action="store_true", help="ask nothing: it is what you mean"),
    word("--retries", metavar="COUNT", type=count_word,
         help=f"ask again so many times where no answer came (default {RETRIES})"),
    word("--new-key", action="store_true",
         help="forget the key of an earlier run without an answer: this is a new command"),
    word("--insecure-http", action="store_true",
         help="send the token without TLS to a desk elsewhere"),
    word("--quiet", action="store_true",
         help="no notes on standard error, only faults and questions"))
DEFAULTS = {
    "json": False,
    "yes": False,
    "retries": RETRIES,
    "new_key": False,
    "insecure_http": False,
    "quiet": False}
STATUSES: tuple[tuple[int, str], ...] = (
    (DONE, "done"),
    (REFUSED,
     ("refused by the desk; a request that won't get the state waited for; minutes that don't"
      " go on")), (WORDS,
                   "wrong words or files, or a question that wasn't answered: nothing was sent"),
    (LOST, ("no connection, a lost answer, a fault of its own: run the same command again; or a"
            " wait is over")),
    (NOT_ALLOWED, "a verdict that isn't allowed; a file that is another image than the request's"))
