"""Each script of docs/TOOLS.md, typed in turn as it stands, by the people of one desk."""
from __future__ import annotations

import re
import shutil
import subprocess

import pytest

from checks.client.test_readme import SBAT, Signing, printed
from checks.support.deskctl import Office
from checks.support.images import digest, digest_list, sha256
from checks.support.says import expect
from checks.support.tools import EXAMPLES, ran

PAGE = "docs/TOOLS.md"
OLD, BUILD, SIGN, ARCHIVE, REVIEW = (
    printed(PAGE, title) for title in (
        "The list that you edit today", "A build system", "sbsign, pesign, Sigul", "The archive",
        "shim-review and Microsoft")
)
IMAGES = {"vmlinuz-6.12-amd64": (EXAMPLES / "tiny.efi").read_bytes(), "vmlinuz-6.12-cloud": SBAT}


def text(lines: list[str]) -> str:
    return "".join(f"{line}\n" for line in lines)


def signs(signing: Signing, name: str, image: str, out: str) -> None:
    ran("sbsign", "--key", f"{name}.key", "--cert", f"{name}.pem", "--output", out, image,
        cwd=signing.room)


def imports(signing: Signing) -> None:
    signing.office.file("olddbx.esl", digest_list([digest("0a"), digest("0b")]).replace(
        bytes.fromhex("33221100"), bytes.fromhex("33221101")))
    signing.types("olga", text(OLD))
    status, said = signing.office["otto"].asked("confirm 1", "0")
    assert status == 0 and "proposal 1 confirmed: 2 new digests" in said, said
    signing.office["olga"].does("import olddbx.esl --dry-run", "Nothing in it is new")


def builds(signing: Signing) -> None:
    """A job that is run again submits nothing again, and ends once both are approved."""
    for name, data in IMAGES.items():
        signing.office.file(name, data)
    for _ in range(2):
        said = signing.types("ann", text(BUILD).replace("deskctl wait", "echo deskctl wait"),
                             VERSION="6.12.118-1")
    expect(re.findall("wait ([0-9]+)", said), ["1", "2"], "the requests of an upload")
    kept = {one.name for one in (signing.room / "images").iterdir()}
    expect(kept, {sha256(data) for data in IMAGES.values()}, "what the reviewers find")
    for number in (1, 2):
        signing.approves(number)
    said = signing.types("ann", text(BUILD), VERSION="6.12.118-1")
    expect(said, "request 1 approved\nrequest 2 approved\n", "the job, once both are approved")


def returns(signing: Signing) -> None:
    """One that another certificate signed isn't returned, nor is any other then."""
    signing.office["olga"].does("list-certificate signer.pem --yes")
    (signing.room / "signed").mkdir()
    for name in IMAGES:
        signs(signing, "signer", name, f"signed/{name}")
    good = signing.room / "signed" / next(reversed(IMAGES))
    shutil.copyfile(good, signing.room / "good")
    signs(signing, "foreign", good.name, f"signed/{good.name}")
    with pytest.raises(AssertionError):
        signing.types("sid", text(SIGN))
    expect(signing.request(1)["state"], "approved", "request 1, beside a foreign signature")
    shutil.copyfile(signing.room / "good", good)
    signing.types("sid", text(SIGN))
    for number, name in enumerate(IMAGES, 1):
        expect(signing.request(number)["returned"],
               sha256((signing.room / "signed" / name).read_bytes()), f"what {number} got")


def takes(signing: Signing) -> None:
    """What isn't listed ends the archive's line with status 4."""
    signing.types("ann", text(ARCHIVE))
    expect((signing.room / "verdicts").read_text().count("allowed\t"), 2, "the verdicts")
    shutil.copyfile(signing.room / "shimx64.efi", signing.room / "signed" / "other.efi")
    person = signing.office["ann"]
    done = subprocess.run(
        ["sh", "-euc", text(ARCHIVE)], cwd=signing.room, check=False, capture_output=True,
        env={**person.env, "PATH": f"{signing.room}/bin:{person.env['PATH']}"})
    expect(done.returncode, 4, "the archive's line about an image that isn't allowed")


def reviewed(signing: Signing) -> None:
    """Another one's signer signs shim, and isn't listed."""
    signing.office.file("shimx64.efi", (EXAMPLES / "tiny.efi").read_bytes() + bytes(8))
    signing.office["ann"].does("submit shimx64.efi --title 'shim 16.1 amd64'")
    signing.approves(3)
    signs(signing, "foreign", "shimx64.efi", "shimx64.signed.efi")
    for name, line in zip(("ann", "olga", "sid"), REVIEW):
        said = signing.types(name, line, NUMBER="3")
    assert "request 3 signed" in said, said
    signing.office["ann"].does("verdict shimx64.signed.efi", "allowed")


@pytest.mark.needs("openssl", "osslsigncode", "sbsign")
@pytest.mark.long(20)
def test_each_script_of_the_page_does_what_the_page_says(office: Office) -> None:
    signing = Signing(office)
    for part in (imports, builds, returns, takes, reviewed):
        part(signing)
