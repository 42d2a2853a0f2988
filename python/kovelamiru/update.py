"""What stands before signature lists: the attributes of a variable, in a file of efivarfs, and the
head of an authenticated update (EFI_VARIABLE_AUTHENTICATION_2 of UEFI 2.10, section 8.2.2)."""
from __future__ import annotations

import struct
from typing import Optional

from .faults import Unreadable
from .siglists import KINDS

ATTRIBUTE_BITS = 0x7F
# wCertificateType and CertType, which stand at 22 in an authenticated update, whatever its time is:
# efitools writes zeros there for an update that appends.
UPDATE = b"\xf1\x0e" + next(kind for kind, name in KINDS.items() if name == "pkcs7")


def efi_time(data: bytes) -> Optional[str]:
    """An EFI_TIME in words, if these bytes are one."""
    if len(data) < 16:
        return None
    year, month, day, hour, minute, second, _ = struct.unpack_from("<HBBBBBB", data)
    if not (1900 <= year <= 9999 and 1 <= month <= 12 and 1 <= day <= 31 and hour < 24
            and minute < 60 and second < 60):
        return None
    return f"{year}-{month:02}-{day:02} {hour:02}:{minute:02}:{second:02}"


def variable(data: bytes) -> tuple[bytes, list[str]]:
    """What a variable's file of efivarfs holds, and what stands before it; else the same bytes."""
    attributes = int.from_bytes(data[:4], "little")
    if len(data) < 4 or not 0 < attributes <= ATTRIBUTE_BITS:
        return data, []
    return data[4:], [f"a variable as efivarfs gives it, attributes 0x{attributes:02x}"]


def unwrapped(data: bytes) -> tuple[bytes, list[str]]:
    """Signature lists without what stands before them in a variable's file or in an update, and
    what that was."""
    data, found = variable(data)
    when = efi_time(data)
    if data[22:40] == UPDATE or when and data[:16] not in KINDS:
        found.append("an authenticated update (EFI_VARIABLE_AUTHENTICATION_2)"
                     f" {f'of {when}' if when else 'without a date'}; its signature isn't verified")
        data = data[16 + certificate_length(data):]
    return data, found


def certificate_length(data: bytes) -> int:
    """dwLength of the WIN_CERTIFICATE_UEFI_GUID behind the time of an update."""
    if len(data) < 40:
        raise Unreadable(
            f"an authenticated update has a header of 40 bytes, and the file ends after {len(data)}"
        )
    length, revision = struct.unpack_from("<IH", data, 16)
    if revision != 0x0200 or data[22:40] != UPDATE:
        raise Unreadable(
            "behind a time there is no WIN_CERTIFICATE_UEFI_GUID of PKCS #7, as an authenticated"
            " update has it")
    if not 24 <= length <= len(data) - 16:
        raise Unreadable(f"an authenticated update says that its signature has {length:,} bytes,"
                         f" and {len(data) - 16:,} are left")
    return int(length)
