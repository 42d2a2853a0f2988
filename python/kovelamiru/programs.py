"""Programs that are run, each with a time in which it has to end: desk(1), ssh-keygen(1), the
signing command."""
from __future__ import annotations

import contextlib
import os
import signal
import subprocess
import tempfile
from typing import NoReturn

from .faults import REFUSED, Stop, broken, reason

# How long a program may take: desk(1); the signing command and ssh-keygen(1).
PROGRAM_SECONDS, SIGNING_SECONDS = 300, 120
Done = subprocess.CompletedProcess[bytes]


def refused(rule: str, text: str) -> NoReturn:
    raise Stop(REFUSED, f"refused {rule}: {text}")


def ran(name: str, words: list[str], seconds: int, given: bytes = b"") -> Done:
    """A program that ends in time, or is ended with all that it started. It is told of no
    credentials."""
    environment = {name: text for name, text in os.environ.items()
                   if name != "CREDENTIALS_DIRECTORY"}
    try:
        process = subprocess.Popen(words, stdin=subprocess.PIPE, stdout=subprocess.PIPE,
                                   stderr=subprocess.PIPE, env=environment, start_new_session=True)
    except OSError as error:
        broken(f"{words[0]}: {error.strerror}")
    try:
        out, said = process.communicate(given, seconds)
    except BaseException as error:
        # What it started may go on after it, with its output.
        with contextlib.suppress(ProcessLookupError):
            os.killpg(process.pid, signal.SIGKILL)
        process.wait()
        if isinstance(error, subprocess.TimeoutExpired):
            broken(f"{name}: it hadn't ended after {seconds} seconds")
        raise
    return subprocess.CompletedProcess(words, process.returncode, out, said)


def said_by(done: Done) -> str:
    return done.stderr.decode(errors="replace").strip()[-300:]


def audited(program: str, owner: str, minutes: str, *export: str, given: bytes = b"") -> bytes:
    """What `desk audit` says of the minutes in this file, or of those given, if it passes them."""
    done = ran("desk audit", [program, "audit", owner, minutes, *export], PROGRAM_SECONDS, given)
    if done.returncode == 1:
        refused("audit", said_by(done) or "desk audit has status 1")
    if done.returncode != 0:
        broken(f"desk audit: {said_by(done)}")
    return done.stdout


def signature(key: str, what: str, data: bytes) -> bytes:
    """For this namespace, by ssh-keygen(1)."""
    command = ["ssh-keygen", "-Y", "sign", "-f", key, "-n", what]
    done = ran("ssh-keygen", command, SIGNING_SECONDS, data)
    if done.returncode != 0 or not done.stdout.startswith(b"-----BEGIN SSH SIGNATURE-----"):
        broken(f"ssh-keygen signs nothing with {key}: {said_by(done)}")
    return done.stdout


def unsigned(signers: str, name: str, what: str, sign: str, data: bytes) -> str:
    """Why the file `sign` isn't this one's signature of the data for this namespace; nothing if it
    is. The file `signers` says whose keys count."""
    done = ran("ssh-keygen", ["ssh-keygen", "-Y", "verify", "-f", signers, "-I", name, "-n", what,
                              "-s", sign], SIGNING_SECONDS, data)
    if done.returncode == 0:
        return ""
    return said_by(done) or done.stdout.decode(errors="replace").strip() or "no signature"


def unsigned_by(key: str, what: str, sign: bytes, data: bytes) -> str:
    """The same of one key, by its public line."""
    with tempfile.TemporaryDirectory() as folder:
        signers, at = os.path.join(folder, "signers"), os.path.join(folder, "sig")
        for path, text in ((signers, f"publisher {key}\n".encode()), (at, sign)):
            with open(path, "wb") as file:
                file.write(text)
        return unsigned(signers, "publisher", what, at, data)


def public_line(key: str) -> str:
    """The public line of the key that signs: of the file beside it, of itself where an agent has
    the other half, or by ssh-keygen(1)."""
    try:
        beside = f"{key}.pub"
        with open(beside if os.path.exists(beside) else key, encoding="ascii") as file:
            line = file.readline().strip()
    except (OSError, ValueError) as error:
        broken(f"{key}: {reason(error)}")
    if line.startswith("-----"):
        done = ran("ssh-keygen", ["ssh-keygen", "-y", "-f", key], SIGNING_SECONDS)
        if done.returncode != 0:
            broken(f"{key}: {said_by(done)}")
        line = done.stdout.decode("ascii", "replace").strip()
    return " ".join(line.split()[:2])
