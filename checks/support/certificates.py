"""Certificates that openssl makes on the spot: NAME.key and NAME.pem in a folder, and NAME.der."""
from __future__ import annotations

from pathlib import Path
from typing import Sequence

from checks.support.tools import ran

ELLIPTIC = ("-newkey", "ec", "-pkeyopt", "ec_paramgen_curve:prime256v1")
RSA = ("-newkey", "rsa:2048")


def self_signed(
    folder: Path, name: str, subject: str = "", kind: Sequence[str] = ELLIPTIC,
    *extensions: str
) -> bytes:
    """The bytes of its DER."""
    more = [word for one in extensions for word in ("-addext", one)]
    ran("openssl", "req", "-x509", *kind, "-nodes", "-days", "2", "-subj", subject or f"/CN={name}",
        "-keyout", f"{name}.key", "-out", f"{name}.pem", *more, cwd=folder)
    ran("openssl", "x509", "-in", f"{name}.pem", "-outform", "DER", "-out", f"{name}.der",
        cwd=folder)
    return (folder / f"{name}.der").read_bytes()


def authority(folder: Path, name: str = "ca") -> Path:
    """A CA of its own: its certificate in PEM."""
    usage = "keyUsage=critical,keyCertSign,cRLSign"
    self_signed(folder, name, "", ELLIPTIC, usage)
    return folder / f"{name}.pem"


def issued(folder: Path, name: str, subject: str = "", alternative: str = "") -> None:
    """A certificate of the folder's CA, which has this subjectAltName."""
    ran("openssl", "req", "-new", *ELLIPTIC, "-nodes", "-subj", subject or f"/CN={name}",
        "-keyout", f"{name}.key", "-out", f"{name}.csr", cwd=folder)
    names = f"subjectAltName={alternative}\n" if alternative else ""
    (folder / f"{name}.ext").write_text(
        "basicConstraints=CA:FALSE\nsubjectKeyIdentifier=hash\nauthorityKeyIdentifier=keyid\n"
        + names
    )
    ran("openssl", "x509", "-req", "-in", f"{name}.csr", "-CA", "ca.pem", "-CAkey", "ca.key",
        "-CAcreateserial", "-days", "2", "-extfile", f"{name}.ext", "-out", f"{name}.pem",
        cwd=folder)


def revoked_none(folder: Path) -> None:
    """The list of the revoked certificates of the folder's CA, ca.crl: none."""
    (folder / "ca.index").write_text("")
    (folder / "ca.number").write_text("01\n")
    (folder / "ca.conf").write_text(
        "[ca]\ndefault_ca=own\n[own]\ndatabase=ca.index\ncrlnumber=ca.number\ncertificate=ca.pem\n"
        "private_key=ca.key\ndefault_md=sha256\ndefault_crl_days=2\n"
    )
    ran("openssl", "ca", "-config", "ca.conf", "-gencrl", "-out", "ca.crl", cwd=folder)
