"""The files of page/wire/cases, their bytes made; the README beside them has the format."""
from __future__ import annotations

import base64
import textwrap
from typing import Any

from checks.support.wire import wire

Parts = dict[str, list[Any]]


def piece_bytes(parts: Parts, piece: Any) -> bytes:
    if isinstance(piece, str):
        return bytes.fromhex(piece)
    if "hex" in piece:
        return bytes.fromhex(piece["hex"]) * int(piece["times"])
    if "part" in piece:
        return row_bytes(parts, parts[piece["part"]])
    if "base64" in piece:
        label = piece.get("label", "CERTIFICATE")
        text = base64.b64encode(row_bytes(parts, parts[piece["base64"]])).decode()
        lines = [f"-----BEGIN {label}-----", *textwrap.wrap(text, 64), f"-----END {label}-----"]
        return "".join(f"{line}\n" for line in lines).encode()
    ((coding, text),) = piece.items()
    return str(text).encode("utf-8" if coding == "text" else coding)


def row_bytes(parts: Parts, row: list[Any]) -> bytes:
    return b"".join(piece_bytes(parts, piece) for piece in row)


def files(what: str) -> list[dict[str, Any]]:
    """The `imports` or the `certificates` of imports.json, with their `bytes` and `body`."""
    table = wire("cases/imports")
    return [
        {name: row_bytes(table["parts"], value) if name in ("bytes", "body") else value
         for name, value in case.items()} for case in table[what]
    ]


# A certificate in its whole form, and the SHA-256 of its TBSCertificate.
SIGNER = next(
    case for case in files("certificates") if case["name"] == "a signer that its CA issued, in DER"
)
