"""For firmware.sh: certificates and their keys, made by openssl in the working directory, and what
signs with them."""
from __future__ import annotations

import os
import subprocess
import tempfile
from concurrent.futures import ThreadPoolExecutor
from typing import Callable, Dict

from checks.firmware.images import Signer, tbs

CONFIG = """
[req]
distinguished_name = name
[name]
[self]
subjectKeyIdentifier = hash
authorityKeyIdentifier = keyid:always,issuer
basicConstraints = critical,CA:TRUE
[issued]
basicConstraints = CA:FALSE
keyUsage = digitalSignature
extendedKeyUsage = codeSigning
[between]
basicConstraints = critical,CA:TRUE
[ca]
default_ca = old
[old]
database = old.index
serial = old.serial
new_certs_dir = .
default_md = sha256
policy = any
x509_extensions = self
[any]
commonName = supplied
"""
# Who issued each of the certificates that somebody else issued.
ISSUERS = {
    "leaf": "ca", "leaf-revoked": "ca", "inter": "ca", "leaf-inter": "inter",
    "leaf-gone": "ca-gone", "leaf-first": "ca-gone", "leaf-last": "ca-gone",
    "leaf-never": "ca-never", "vendor-leaf": "vendor", "vendor-leaf-revoked": "vendor",
}
SELF = (
    "listed", "other", "unlisted", "revoked", "revoked-unlisted", "ca", "ca-gone", "ca-never",
    "vendor",
)


def run(*words: str, given: bytes = b"", limit: int = 600) -> bytes:
    """What a command writes; it has to end well, and in time."""
    ran = subprocess.run(words, input=given, capture_output=True, timeout=limit, check=False)
    if ran.returncode:
        said = (ran.stdout[-500:] + ran.stderr[-1500:]).decode("utf-8", "replace")
        raise SystemExit(f"checks/firmware.sh: {' '.join(words)}: status {ran.returncode}: {said}")
    return ran.stdout


class Keys:
    """Certificates by name: NAME.pem, NAME.key; `certificates` has them in DER."""

    def __init__(self) -> None:
        self.certificates: Dict[str, bytes] = {}
        with open("openssl.cnf", "w", encoding="ascii") as file:
            file.write(CONFIG)
        with ThreadPoolExecutor(8) as several:
            for done in several.map(self.make_key, (*SELF, *ISSUERS, "expired", "elliptic")):
                pass
        for name in SELF:
            self.make(name)
        # In db the CA stands between two of its leaves: the first entry that matches decides.
        self.again("ca-gone", lambda digest: "4" <= digest[0] <= "b")
        for name in (*ISSUERS, "elliptic"):
            self.make(name)
        gone = tbs(self.certificates["ca-gone"])
        self.again("leaf-first", lambda digest: digest < gone)
        self.again("leaf-last", lambda digest: digest > gone)
        # Another certificate of a listed one's key and name.
        os.symlink("listed.key", "twin.key")
        self.make("twin", subject="listed")
        self.make_old()

    @staticmethod
    def make_key(name: str) -> None:
        kind, option = "RSA", "rsa_keygen_bits:2048"
        if name == "elliptic":
            kind, option = "EC", "ec_paramgen_curve:P-256"
        run("openssl", "genpkey", "-algorithm", kind, "-pkeyopt", option, "-out", f"{name}.key")

    def make(self, name: str, subject: str = "") -> None:
        """A certificate with the key that is there."""
        issuer = ISSUERS.get(name)
        words = ["-CA", f"{issuer}.pem", "-CAkey", f"{issuer}.key"] if issuer else ["-x509"]
        kind = "between" if name == "inter" else "issued" if issuer else "self"
        run(
            "openssl", "req", "-config", "openssl.cnf", *words, "-key", f"{name}.key", "-sha256",
            "-days", "3650", "-subj", f"/CN=check {subject or name}", "-extensions", kind,
            "-out", f"{name}.pem",
        )
        self.read(name)

    def again(self, name: str, fits: Callable[[str], bool]) -> None:
        """The same with other serial numbers, until its digest fits."""
        while not fits(tbs(self.certificates[name])):
            self.make(name)

    def make_old(self) -> None:
        """A certificate that expired in 2012."""
        for name, text in (("old.index", ""), ("old.serial", "1E61\n")):
            with open(name, "w", encoding="ascii") as file:
                file.write(text)
        run(
            "openssl", "req", "-config", "openssl.cnf", "-new", "-key", "expired.key",
            "-subj", "/CN=check expired", "-out", "expired.csr",
        )
        run(
            "openssl", "ca", "-config", "openssl.cnf", "-batch", "-notext", "-selfsign",
            "-keyfile", "expired.key", "-in", "expired.csr", "-out", "expired.pem",
            "-startdate", "20100101000000Z", "-enddate", "20120101000000Z",
        )
        self.read("expired")

    def read(self, name: str) -> None:
        self.certificates[name] = run("openssl", "x509", "-in", f"{name}.pem", "-outform", "DER")
        with open(f"{name}.der", "wb") as file:
            file.write(self.certificates[name])

    def tbs(self, name: str) -> str:
        return tbs(self.certificates[name])

    def signer(self, name: str) -> Signer:
        return Signer(self.certificates[name], f"{name}.key", name == "elliptic")


class Tools:
    """Signing tools of Debian, each with keys of this folder."""

    def __init__(self) -> None:
        os.mkdir("nss")
        run("certutil", "-N", "-d", "nss", "--empty-password")
        run(
            "openssl", "pkcs12", "-export", "-inkey", "listed.key", "-in", "listed.pem",
            "-name", "listed", "-passout", "pass:", "-out", "listed.p12",
        )
        run("pk12util", "-d", "nss", "-i", "listed.p12", "-W", "", "-K", "")

    def through(self, image: bytes, *words: str) -> bytes:
        """What a tool makes of an image; among its words `unsigned` and `signed` are files."""
        with tempfile.TemporaryDirectory(dir=".") as room:
            files = {name: os.path.join(room, name) for name in ("unsigned", "signed")}
            with open(files["unsigned"], "wb") as file:
                file.write(image)
            run(*(files.get(word, word) for word in words))
            with open(files["signed"], "rb") as file:
                return file.read()

    def sbsign(self, image: bytes, *names: str) -> bytes:
        """Signed by one after another."""
        for name in names:
            image = self.through(
                image, "sbsign", "--key", f"{name}.key", "--cert", f"{name}.pem",
                "--output", "signed", "unsigned",
            )
        return image

    def pesign(self, image: bytes) -> bytes:
        return self.through(
            image, "pesign", "-n", "nss", "-c", "listed", "-s", "-f",
            "-i", "unsigned", "-o", "signed",
        )

    def osslsigncode(self, image: bytes) -> bytes:
        return self.through(
            image, "osslsigncode", "sign", "-h", "sha256", "-certs", "listed.pem",
            "-key", "listed.key", "-in", "unsigned", "-out", "signed",
        )
