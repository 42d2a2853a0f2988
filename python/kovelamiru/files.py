"""Files: read whole within a limit, known by their first bytes, written whole."""
from __future__ import annotations

import os
import stat
import tempfile

from .described import LIMITS, WORDS
from .faults import broken, reason, wrong
from .siglists import KINDS

# The most bytes of an image, of another body, of a certificate; the most entries of an import.
IMAGE_LIMIT, BODY_LIMIT, CERTIFICATE_LIMIT, ENTRY_LIMIT = (
    LIMITS[name] for name in ("image", "body", "certificate", "entries"))


def read_file(path: str, limit: int, what: str) -> bytes:
    """A file whole."""
    try:
        with open(path, "rb") as file:
            data = file.read(limit + 1)
            size = max(len(data), os.fstat(file.fileno()).st_size)
    except OSError as error:
        wrong(f"{path}: {reason(error)}")
    if len(data) > limit:
        wrong(f"{path} has {size:,} bytes, and {what} at most {limit:,}")
    return data


LOOKS: list[tuple[bytes, str]] = [(bytes.fromhex(begin), words) for begin, words in WORDS["looks"]]


def looks_like(data: bytes) -> str:
    """What a file seems to be, by its first bytes."""
    if not data:
        return "empty"
    if data[:16] in KINDS:
        return "signature lists"
    return next((words for begin, words in LOOKS if data.startswith(begin)),
                "no file of a kind that is known here")


def write_all(file: int, data: bytes) -> None:
    """Writes all of it. One call may write less, as on a disk that is nearly full."""
    left = memoryview(data)
    while left:
        left = left[os.write(file, left):]


def fresh(path: str, data: bytes) -> None:
    """A file whole, or as it was."""
    path = os.path.realpath(path)
    folder = os.path.dirname(path)
    try:
        if os.path.exists(path) and not os.path.isfile(path):
            # A device, or a pipe: it stays what it is.
            with open(path, "wb") as device:
                device.write(data)
            return
        made, name = tempfile.mkstemp(prefix=".deskctl-", dir=folder)
        try:
            mask = os.umask(0)
            os.umask(mask)
            os.fchmod(made, 0o666 & ~mask)
            with os.fdopen(made, "wb") as file:
                file.write(data)
                file.flush()
                os.fsync(file.fileno())
            os.replace(name, path)
        except BaseException:
            os.unlink(name)
            raise
    except OSError as error:
        broken(f"{path}: {reason(error)}")


def home() -> str:
    found = os.path.expanduser("~")
    if not os.path.isabs(found):
        wrong("this user has no home folder", "Set HOME, or XDG_CONFIG_HOME and XDG_STATE_HOME.")
    return found


def folder_of(variable: str, default: str) -> str:
    """A folder by the XDG rules."""
    given = os.environ.get(variable, "")
    return given if os.path.isabs(given) else os.path.join(home(), default)


class Exposed(Exception):
    """A secret's file that is no file, or that isn't this user's alone."""


def private_line(path: str) -> bytes:
    """The first line of a file or a pipe that nobody else can read."""
    opened = os.open(path, os.O_RDONLY | os.O_CLOEXEC)
    try:
        found = os.fstat(opened)
        # systemd shows the mask of its access list as the group's bits.
        given = os.path.realpath(os.environ.get("CREDENTIALS_DIRECTORY") or os.devnull)
        others = 0o007 if os.path.realpath(path).startswith(given + "/") else 0o077
        if not (stat.S_ISREG(found.st_mode) or stat.S_ISFIFO(found.st_mode)):
            raise Exposed("is no file")
        if found.st_uid not in (0, os.geteuid()):
            raise Exposed("is somebody else's")
        if found.st_mode & others:
            raise Exposed("can be read by others")
        with os.fdopen(opened, "rb", closefd=False) as file:
            return file.read(4096).split(b"\n", 1)[0].removesuffix(b"\r")
    finally:
        os.close(opened)


def is_token(line: bytes) -> bool:
    return 16 <= len(line) <= 128 and all(0x21 <= sign <= 0x7E for sign in line)
