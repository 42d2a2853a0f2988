"""The limits of images: at each the greatest that is allowed is taken, and one more refused.

By `facts`, `ranges` and `verdict`, by a verdict over HTTP, and as a request: sections, certificate
tables, certificates, SBAT text, components, and the bytes of a file."""
from __future__ import annotations

import os

import pytest

from checks.conftest import NewDesk
from checks.support.images import (
    CERTIFICATE, OWNER, PLAIN, STORED, authenticode, changed, digest, digest_list, sha256,
    with_table, with_text
)
from checks.support.largest import LARGEST_IMAGE, der, largest
from checks.support.messages import line
from checks.support.program import Program
from checks.support.server import serves
from checks.support.steps import judges, refuses, submits, too_large

IMAGE_LIMIT, LINES_LIMIT = 134_217_728, 8_388_608
NOT_LISTED: dict[str, object] = {"verdict": "not-listed"}
ALLOWED_NOT = b"refused not-listed\n"


def with_sections(count: int) -> bytes:
    """The image with so many sections of 512 bytes."""
    head = -(-(328 + 40 * count) // 512) * 512
    rows = b""
    for place in range(count):
        fields = (0, 0, 512, head + 512 * place)
        rows += b".text\0\0\0" + b"".join(one.to_bytes(4, "little") for one in fields) + bytes(16)
    counted = (70, count.to_bytes(2, "little").hex())
    image = changed(PLAIN[:328], counted, (148, head.to_bytes(4, "little").hex()))
    return (image + rows).ljust(head + 512 * count, b"\0")


def with_table_of(size: int) -> bytes:
    """The image with a certificate table of so many bytes, of one entry that carries one
    certificate."""
    filler = der(0x30, bytes(size - 52))
    signed = der(0x30, bytes.fromhex("020101" "3100") + filler + der(0xA0, CERTIFICATE))
    body = der(0x30, bytes.fromhex("0600") + der(0xA0, signed))
    entry = (8 + len(body)).to_bytes(4, "little") + bytes.fromhex("00020200") + body
    assert size - 8 < len(entry) <= size, f"a table of {len(entry)} bytes in place of {size}"
    return with_table(PLAIN, entry.ljust(size, b"\0"))


def with_rows(size: int) -> bytes:
    """The image with SBAT text of so many bytes: 256 components."""
    each = size // 256
    rows = [(b"c%d,1,a,b,1," % number).ljust(each - 1, b"u") + b"\n" for number in range(256)]
    return with_text(PLAIN, b"".join(rows) + bytes(size - 256 * each))


def with_row(row: bytes) -> bytes:
    return with_text(PLAIN, b"sbat,1,a,b,1,u\n" + row + b"\n")


LONGEST_TABLE = with_table_of(1_048_576)[len(PLAIN):]
# Each image, and what it is refused for, with the place.
IMAGES: dict[str, tuple[bytes, int | None, int | None]] = {
    "96 sections": (with_sections(96), None, None),
    "97 sections": (with_sections(97), 7, None),
    "a table of 900,008 bytes": (with_table_of(900_008), None, None),
    "a table of 1,048,576 bytes": (with_table(PLAIN, LONGEST_TABLE), None, None),
    "a table of 1,048,577 bytes": (with_table(PLAIN, LONGEST_TABLE + b"\0"), 13, None),
    "SBAT text of 65,536 bytes": (with_rows(65_536), None, None),
    "SBAT text of 65,537 bytes": (with_rows(65_537), 13, None),
    "41 certificates": (largest(41, 1), None, None),
    "64 certificates and 256 components": (LARGEST_IMAGE, None, None),
    "65 certificates": (largest(65, 256), 13, None),
    "257 components": (largest(64, 257), 13, None),
    "a component's name of 128 bytes": (with_row(b"n" * 128 + b",1,a,b,1,u"), None, None),
    "a component's name of 129 bytes": (with_row(b"n" * 129 + b",1,a,b,1,u"), 12, 2),
    "the greatest generation": (with_row(b"grub,4294967295,a,b,1,u"), None, None),
    "a generation above it": (with_row(b"grub,4294967296,a,b,1,u"), 12, 2),
    "a generation of ten digits": (with_row(b"grub,0000000001,a,b,1,u"), None, None),
    "a generation of eleven digits": (with_row(b"grub,00000000001,a,b,1,u"), 12, 2),
}


@pytest.mark.parametrize("what", IMAGES)
def test_an_image_at_a_limit_is_taken_and_one_past_it_refused(
    desk: Program, new_desk: NewDesk, what: str
) -> None:
    """By `facts` and `verdict`, by a verdict over HTTP, and as a request."""
    image, why, place = IMAGES[what]
    path, file = new_desk(), desk.file("image", image)
    title = ("Desk-Title", what)
    if why is None:
        hashed = authenticode(image)
        head = f"length {len(image)}\nfile {sha256(image)}\ndigest {hashed}\nsigning {hashed}\n"
        assert desk.gives("facts", file).startswith(f"{head}gap 0\n".encode()), f"facts of {what}"
        steps = [judges("ann", image, NOT_LISTED), submits("ann", "k1", image, what, 1)]
        desk.ends(1, ALLOWED_NOT, b"", "verdict", path, file)
    else:
        desk.ends(1, b"", line(why, place), "facts", file)
        steps = [
            refuses(why, "ann", "unused", "/verdict", image, at=place),
            refuses(why, "ann", "unused", "/requests", image, title, at=place),
        ]
        desk.ends(1, b"", line(why, place), "verdict", path, file)
    serves(desk, path, steps, what, ends=False)


@pytest.mark.long(60)
def test_a_file_at_its_limit_is_read_and_one_past_it_refused(
    desk: Program, new_desk: NewDesk
) -> None:
    """Images and lists at the most bytes of a file, and lines of `pack` at theirs."""
    path = new_desk()
    head = changed(PLAIN, (344, "00feff07"))
    long = desk.file("long", head)
    os.truncate(long, IMAGE_LIMIT)
    ranges = b"0-152\n156-232\n240-512\n512-134217728\ngap 0\n"
    desk.ends(0, ranges, b"", "ranges", long)
    desk.ends(1, ALLOWED_NOT, b"", "verdict", path, long)
    os.truncate(long, IMAGE_LIMIT + 1)
    for words in (("ranges", long), ("verdict", path, long), ("facts", long), ("list", long)):
        desk.ends(1, b"", line(13), *words)
    sizes = (IMAGE_LIMIT, 0, IMAGE_LIMIT - 28)
    os.truncate(
        desk.file("long", STORED + b"".join(one.to_bytes(4, "little") for one in sizes)),
        IMAGE_LIMIT,
    )
    desk.ends(0, f"0 {OWNER} 1\n".encode(), b"", "list", long)
    os.remove(long)
    lines = f"{digest('aa')}\n".encode().rjust(LINES_LIMIT, b"\n")
    desk.ends(0, digest_list([digest("aa")]), b"", "pack", OWNER, given=lines)
    desk.ends(1, b"", line(13), "pack", OWNER, given=b"\n" + lines)
    image, longer = head.ljust(IMAGE_LIMIT, b"\0"), ("Desk-Title", "longer")
    steps = [
        judges("ann", image, NOT_LISTED),
        submits("ann", "k1", image, "the longest", 1),
        too_large("ann", "unused", "/verdict", IMAGE_LIMIT + 1),
        too_large("ann", "k2", "/requests", IMAGE_LIMIT + 1, longer),
    ]
    serves(desk, path, steps, "the longest image", ends=False)
