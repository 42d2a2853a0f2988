"""Files of a publication: read without a link, written whole, given to the disk."""
from __future__ import annotations

import os
import stat

from ..faults import broken


def read(path: str) -> bytes:
    """A file's bytes: of no link, and of nothing that could be waited for."""
    try:
        opened = os.open(path, os.O_RDONLY | os.O_NOFOLLOW | os.O_NONBLOCK | os.O_CLOEXEC)
        with os.fdopen(opened, "rb") as file:
            if not stat.S_ISREG(os.fstat(opened).st_mode):
                broken(f"{path} is no file")
            return file.read()
    except OSError as error:
        broken(f"{path}: {error.strerror}")


def write(path: str, data: bytes, mode: int) -> None:
    with open(path, "xb") as file:
        os.fchmod(file.fileno(), mode)
        file.write(data)


def synced(path: str) -> None:
    """The disk has a file's bytes, or a folder's names."""
    opened = os.open(path, os.O_RDONLY | os.O_CLOEXEC)
    try:
        os.fsync(opened)
    finally:
        os.close(opened)
