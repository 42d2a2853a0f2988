"""CSV as RFC 4180 has it, and the desk's own."""
from __future__ import annotations

import csv
import io
from typing import Iterator, Sequence

from .faults import Unreadable


def records_of(data: bytes) -> Iterator[list[str]]:
    text = data.decode("utf-8-sig", "replace")
    return csv.reader(io.StringIO(text, newline=""))


def first_record(data: bytes) -> list[str]:
    """The first line's fields."""
    try:
        return next(records_of(data[:65536]), [])
    except csv.Error:
        return []


def records(data: bytes) -> list[list[str]]:
    """The records of CSV, without empty lines."""
    try:
        return [record for record in records_of(data) if record]
    except csv.Error as error:
        raise Unreadable(f"a record of the CSV can't be read: {error}",
                      "Is a quotation mark missing?") from None


def csv_of(digests: Sequence[str], certificates: Sequence[str],
           components: Sequence[tuple[str, int]]) -> bytes:
    """The desk's CSV of these entries."""
    lines = ["kind,value,generation"]
    lines += [f"sha256,{digest}," for digest in digests]
    lines += [f"x509_sha256,{digest}," for digest in certificates]
    lines += [f"sbat,{name},{generation}" for name, generation in components]
    return ("\n".join(lines) + "\n").encode()
