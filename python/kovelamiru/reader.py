"""What desk-publish and desk-standby share: a desk that is read over HTTP by a machine, and the
ends of a run."""
from __future__ import annotations

import argparse
import fcntl
import os
import ssl
import time
from typing import Callable, Optional

from .faults import LOST, NoAnswer, Stop, Unreadable, broken, reason, wrong
from .files import Exposed, is_token, private_line
from .http import Call, Site, Where, address
from .minutes import is_numbered
from .words import tell

# How long a desk may take to answer, however often it is asked, and how long an answer may be: a
# list of 10,000 certificates has 625 MiB.
ANSWER_SECONDS, ANSWER_BYTES = 300, 1 << 30
# How many calls a desk accepts.
MOST_CALLS = 1_000_000


def own_line(path: str, what: str) -> bytes:
    """The first line of a file that nobody else can read."""
    try:
        return private_line(path)
    except OSError as error:
        broken(f"{what} {path}: {error.strerror}")
    except Exposed as fault:
        wrong(f"others can read {what} {path}: chmod 600" if str(fault) ==
              "can be read by others" else f"{what} {path} {fault}")


def token_of(path: str) -> str:
    line = own_line(path, "the token file")
    if not is_token(line):
        wrong(f"the first line of {path} is no token")
    return line.decode()


def where_of(words: argparse.Namespace) -> Where:
    try:
        where = address(words.url)
    except Unreadable:
        wrong(f"{words.url} is no URL of a desk")
    if where.prefix:
        wrong(f"{words.url} is no URL of a desk")
    if not where.tls and words.cert:
        wrong(f"{words.url}: a certificate takes https")
    if not where.tls and where.host != "127.0.0.1":
        wrong(f"http to {where.host} would show the token to others: use https")
    return where


def tls_of(words: argparse.Namespace) -> ssl.SSLContext:
    try:
        context = ssl.create_default_context(cafile=words.ca)
    except OSError as error:
        broken(f"the certificates {words.ca}: {reason(error)}")
    if words.cert:
        own_line(words.cert_key, "the private key")
        try:
            # (a passphrase is asked of nobody)
            context.load_cert_chain(words.cert, words.cert_key, password="")
        except OSError as error:
            broken(f"the certificate {words.cert} with {words.cert_key}: {reason(error)}")
    return context


class Reader(Site):
    """A desk by its URL, read with an officer's token, or with a certificate for which a proxy has
    one."""
    def __init__(self, words: argparse.Namespace, program: str):
        where = where_of(words)
        context: Optional[ssl.SSLContext] = tls_of(words) if where.tls else None
        super().__init__(where, context, "" if words.cert else token_of(words.token_file), program)
        self.most_bytes = ANSWER_BYTES

    def get(self, path: str) -> bytes:
        """What the desk shows there. It is asked again where no answer came, or none of its own."""
        said = ""
        self.until = time.monotonic() + ANSWER_SECONDS
        for pause in (1, 2, 4, 8, 0):
            try:
                answer = self.once(Call("GET", path))
            except NoAnswer as lost:
                said = str(lost)
            else:
                if answer.status == 200:
                    return answer.data()
                said = answer.trouble()
                if answer.status not in (429, 502, 503, 504):
                    break
            if time.monotonic() + pause >= self.until:
                break
            time.sleep(pause)
        broken(f"GET {path}: {said}")

    def lines_from(self, number: int) -> bytes:
        """The minutes from this line on, 1,000 lines at most, or none."""
        lines = self.get(f"/minutes/{number}")
        if not is_numbered(lines, number):
            broken(f"GET /minutes/{number}: what came isn't minutes")
        if number + lines.count(b"\n") > MOST_CALLS + 1:
            broken(f"GET /minutes/{number}: no desk has more than {MOST_CALLS:,} calls")
        return lines

    def minutes(self, number: int = 1) -> bytes:
        """The minutes from this line on, all of them."""
        found = []
        while lines := self.lines_from(number):
            found.append(lines)
            number += lines.count(b"\n")
        return b"".join(found)


def add_reader(parser: argparse.ArgumentParser) -> None:
    """The options by which a desk is read over HTTP, but for its URL."""
    for name, text in (
        ("--token-file", "an officer's token, of mode 0600; with --url"),
        ("--cert", "a certificate in its place, for a site that knows machines by theirs; with"
         " --url"),
        ("--cert-key", "the private key of that certificate; with --cert"),
        ("--ca", "certificates that the desk's has to come from, in PEM; with --url")):
        parser.add_argument(name, metavar="FILE", help=text)


def has_reader(parser: argparse.ArgumentParser, words: argparse.Namespace) -> None:
    """Ends the run unless a token or a certificate with its key is named."""
    if bool(words.token_file) == bool(words.cert):
        parser.error("--url takes --token-file, or --cert with --cert-key")
    if bool(words.cert) != bool(words.cert_key):
        parser.error("--cert and --cert-key go together")


def held(path: str) -> None:
    """This run works alone to its end: it has the lock. A link there is nobody's."""
    opened = os.open(path, os.O_RDWR | os.O_CREAT | os.O_NOFOLLOW | os.O_CLOEXEC, 0o600)
    fcntl.flock(opened, fcntl.LOCK_EX | fcntl.LOCK_NB)


def ended(program: str, lock: str, does: str, work: Callable[[], int]) -> int:
    """The status of a run that works alone. Why it failed goes to standard error."""
    try:
        held(lock)
        return work()
    except BlockingIOError:
        status, text = LOST, f"another run is {does}"
    except Stop as stop:
        status, text = stop.status, str(stop)
    except Exception as error:  # pylint: disable=broad-except
        # Status 1 is a refusal's: no fault of this program may pass for one.
        status, text = LOST, f"{type(error).__name__}: {error}"
    tell(f"{program}: {text}")
    return status
