"""The one certificate of a file, in DER or PEM."""
from __future__ import annotations

import base64
import binascii
import re
from typing import Optional

from .certificates import Certificate, certificate_in
from .faults import wrong
from .files import CERTIFICATE_LIMIT, looks_like, read_file
from .words import counted

PEM = re.compile(
    rb"-----BEGIN ((?:TRUSTED |X509 )?CERTIFICATE)-----\s*([A-Za-z0-9+/=\s]*)-----END \1-----")
# What no text has.
CONTROL = re.compile(rb"[\0-\x08\x0e-\x1f\x7f]")


def in_pem(data: bytes) -> bool:
    """Whether text goes before the first PEM, or nothing."""
    before, begin, _ = data.partition(b"-----BEGIN")
    return begin != b"" and not CONTROL.search(before)


def decoded(path: str, data: bytes) -> bytes:
    """The one certificate in PEM."""
    found = PEM.findall(data)
    if len(found) != 1:
        wrong(f"{path} holds {counted(len(found), 'certificate')} in PEM",
              "Give a file of one: the signer's.")
    try:
        return base64.b64decode(b"".join(found[0][1].split()), validate=True)
    except binascii.Error:
        wrong(f"{path}: the PEM is spoiled")


def first_certificate(data: bytes) -> Optional[Certificate]:
    """The certificate that a file is, or the first of those in PEM; nothing where there is none."""
    found = PEM.search(data)
    try:
        return certificate_in(base64.b64decode(b"".join(found[2].split())) if found else data)
    except binascii.Error:
        return None


def certificate_of(path: str) -> Certificate:
    """The one certificate of a file: the file itself, or what stands in it in PEM behind text."""
    data = read_file(path, 16 * CERTIFICATE_LIMIT, "a certificate's file has")
    if b"PRIVATE KEY-----" in data:
        wrong(f"{path} holds a private key; nothing was sent",
              "Give the certificate alone: openssl x509 -in FILE -out certificate.pem")
    inner = decoded(path, data) if in_pem(data) and certificate_in(data) is None else data
    if len(inner) > CERTIFICATE_LIMIT:
        wrong(f"{path} has {len(inner):,} bytes, and a certificate at most {CERTIFICATE_LIMIT:,}")
    certificate = certificate_in(inner)
    if certificate is None:
        wrong(f"{path} is no certificate in PEM or DER; it is {looks_like(data)}",
              ("A certificate is its TBSCertificate, an algorithm and a signature in DER, with"
               " nothing behind them: a request, a key, a CRL and a bundle have other forms."))
    return certificate
