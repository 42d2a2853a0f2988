"""Authenticated updates (EFI_VARIABLE_AUTHENTICATION_2 of UEFI 2.10, section 8.2.2): what the
signing command makes, and whether firmware would take it."""
from __future__ import annotations

import argparse
import os
import shutil
import tempfile
import time
from typing import Optional

from ..faults import Unreadable
from ..programs import SIGNING_SECONDS, ran, refused, said_by
from ..update import certificate_length, efi_time
from .files import read, write
from .page import Before

# EFI_IMAGE_SECURITY_DATABASE_GUID, in which db and dbx are variables.
DATABASE = bytes.fromhex("cbb219d73a3d9645a3bcdad00e67656f")
# Not volatile, of boot services and of the running system, authenticated by time; with it, one that
# only appends.
ATTRIBUTES = (0x27, 0x67)
# The type signedData of PKCS #7, in DER.
SIGNED_DATA = bytes.fromhex("06092a864886f70d010702")


def update(words: argparse.Namespace, name: str, data: bytes, folder: str,
           last: Optional[Before]) -> bytes:
    """The update of a list that the signing command makes, in a folder of its own."""
    command: str = words.sign
    os.mkdir(folder, 0o700)
    try:
        given, out = os.path.join(folder, f"{name}.esl"), os.path.join(folder, f"{name}.auth")
        write(given, data, 0o600)
        done = ran(f"{command} {name}", [command, name, given, out], SIGNING_SECONDS)
        if done.returncode != 0:
            refused("signature", f"{command} {name}: status {done.returncode}: {said_by(done)}")
        made = read(out) if os.path.lexists(out) else b""
    finally:
        shutil.rmtree(folder)
    if not ends_with(made, data):
        refused("signature", f"{command} {name}: what it made isn't an update with the list")
    odd = untimely(made, name, data, last) or (unsigned(made, name, words.kek) if words.kek else "")
    if odd:
        refused("signature", f"firmware would refuse what {name} was signed as: {odd}")
    return made


def ends_with(made: bytes, data: bytes) -> bool:
    """Whether it is an authenticated update with these lists."""
    try:
        return made[16 + certificate_length(made):] == data
    except Unreadable:
        return False


def untimely(made: bytes, name: str, data: bytes, last: Optional[Before]) -> str:
    """Why firmware wouldn't take an update for its time, or no later one after it; or nothing. The
    time is later than that of the update before, and has no fields but date and time; one that only
    appends may have none."""
    if not any(made[:16]):
        return ""
    when, was = efi_time(made), last.times.get(name) if last else None
    latest = time.strftime("%Y-%m-%d %H:%M:%S", time.gmtime(time.time() + 86400))
    same = last is not None and getattr(last.found, name) == data
    if when is None or any(made[7:16]):
        return "its time is none"
    if when > latest:
        return f"its time {when} is ahead of this clock, and no later update could follow"
    if was and (when < was or when == was and not same):
        return f"its time {when} isn't after {was}, that of the update before"
    return ""


def in_der(tag: int, body: bytes) -> bytes:
    """An element of 128 bytes or more."""
    length = len(body).to_bytes((len(body).bit_length() + 7) // 8, "big")
    return bytes([tag, 0x80 | len(length)]) + length + body


def unsigned(made: bytes, name: str, kek: str) -> str:
    """Why no certificate in this file signed it for this variable, or nothing, by openssl(1). The
    message is a SignedData, or a ContentInfo with one."""
    end = 16 + certificate_length(made)
    message, said = made[40:end], ""
    if SIGNED_DATA not in message[:20]:
        message = in_der(0x30, SIGNED_DATA + in_der(0xA0, message))
    with tempfile.TemporaryDirectory() as folder:
        at, content = os.path.join(folder, "message"), os.path.join(folder, "content")
        write(at, message, 0o600)
        for attributes in ATTRIBUTES:
            with open(content, "wb") as file:
                file.write(name.encode("utf-16-le") + DATABASE + attributes.to_bytes(4, "little")
                           + made[:16] + made[end:])
            done = ran("openssl cms", ["openssl", "cms", "-verify", "-binary", "-inform", "DER",
                                       "-in", at, "-content", content, "-certfile", kek,
                                       "-nointern", "-noverify", "-out", os.devnull],
                       SIGNING_SECONDS)
            if done.returncode == 0:
                return ""
            said = said_by(done)
    return f"no certificate of {kek} signed it: {said}"
