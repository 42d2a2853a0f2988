"""An image that anybody signed, whose table carries the listed certificate of somebody else: the
desk allows it, since it checks no signature; each line that the documents print refuses it, and
deskctl asks before it is returned."""
from __future__ import annotations

import os
import re
import shutil
import subprocess
import sys
from pathlib import Path

import pytest

from checks.support.deskctl import Office
from checks.support.images import sha256
from checks.support.says import expect
from checks.support.tools import EXAMPLES, ROOT, ran

pytestmark = pytest.mark.needs("man", "openssl", "osslsigncode", "sbsign")
EXTENSIONS = """\
[ca]
basicConstraints = critical, CA:TRUE
[leaf]
basicConstraints = CA:FALSE
"""


class Makers:
    """Certificates and signed images, in a folder."""

    def __init__(self, room: Path) -> None:
        self.room = room
        (room / "extensions").write_text(EXTENSIONS)
        shutil.copyfile(EXAMPLES / "tiny.efi", room / "image.efi")
        for name, by, kind in (
            ("issuer", "", "ca"), ("signer", "issuer", "leaf"), ("root", "", "ca"),
            ("between", "root", "ca"), ("mallory", "between", "leaf"),
        ):
            self.certifies(name, by, kind)
        (room / "others.pem").write_text("".join(
            (room / f"{name}.pem").read_text() for name in ("between", "signer")
        ))
        self.signs("good.efi", "signer")
        self.signs("forged.efi", "mallory", "--addcert", "others.pem")

    def certifies(self, name: str, by: str, kind: str) -> None:
        ran(
            "openssl", "req", "-newkey", "rsa:2048", "-nodes", "-keyout", f"{name}.key", "-out",
            f"{name}.csr", "-subj", f"/CN={name}", cwd=self.room,
        )
        signing = ("-CA", f"{by}.pem", "-CAkey", f"{by}.key", "-CAcreateserial") if by else (
            "-signkey", f"{name}.key")
        ran(
            "openssl", "x509", "-req", "-in", f"{name}.csr", *signing, "-days", "30", "-extfile",
            "extensions", "-extensions", kind, "-out", f"{name}.pem", cwd=self.room,
        )

    def signs(self, image: str, name: str, *more: str) -> None:
        ran(
            "sbsign", "--key", f"{name}.key", "--cert", f"{name}.pem", *more, "--output", image,
            "image.efi", cwd=self.room,
        )


@pytest.fixture
def makers(room: Path) -> Makers:
    return Makers(room)


def page_of(name: str, room: Path) -> str:
    if name == "client/README.md":
        return (ROOT / name).read_text(encoding="utf-8")
    ran(sys.executable, ROOT / "client" / "pages.py", room)
    return ran("man", "-P", "cat", "-l", room / "deskctl.1").decode()


def printed(page: str) -> str:
    """What the page prints to work out the leaf's hash, and to verify by it."""
    text = page.replace("\\\n", " ")
    leaf = re.search(r"^ *(leaf=\$\(.*)$", text, re.M)
    verify = re.search(r"^ *(osslsigncode verify .*?signed\.efi\"?)", text, re.M)
    assert leaf and verify, text
    return f"{leaf[1]}\n{verify[1]}\n"


@pytest.mark.parametrize("page", ["client/README.md", "deskctl(1)"])
def test_each_printed_line_refuses_the_forgery(page: str, makers: Makers) -> None:
    lines = printed(page_of(page, makers.room))
    for image, taken in (("good.efi", True), ("forged.efi", False)):
        shutil.copyfile(makers.room / image, makers.room / "signed.efi")
        ended = subprocess.run(
            ["sh", "-euc", lines], cwd=makers.room, env={**os.environ, "work": "."},
            stdout=subprocess.PIPE, stderr=subprocess.STDOUT, text=True, check=False,
        )
        assert (ended.returncode == 0) == taken, f"{image}: {lines}{ended.stdout}"


def types(office: Office, name: str, line: str, status: int = 0) -> str:
    """What somebody sees who types this."""
    found = office[name].run(line)
    expect(found.status, status, f"{name} types: deskctl {line}: {found}")
    return found.out + found.err


def test_deskctl_asks_before_the_forgery_is_returned(office: Office, makers: Makers) -> None:
    types(office, "ann", "submit image.efi --title 'a loader'")
    for name in ("rita", "raul"):
        types(office, name, "review 1 yes")
    types(office, "olga", "list-certificate signer.pem --yes")
    said = types(office, "sid", "return 1 forged.efi", 2)
    assert "no signature says that it is by a listed one: by CN=mallory" in said, said
    assert "nothing was sent" in said and "approved" in types(office, "sid", "request 1")
    said = types(office, "sid", "verdict forged.efi")
    assert "allowed\t" in said and "by CN=mallory" in said, said
    assert "no signature says" not in types(office, "sid", "verdict good.efi")
    types(office, "sid", "return 1 good.efi")
    returned = sha256((makers.room / "good.efi").read_bytes())
    said = types(office, "sid", "request 1")
    assert f"returned    {returned}\nverdict     The desk allowed the returned file" in said, said
