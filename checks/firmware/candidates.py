"""For firmware.sh: the candidates, images that a desk, the firmware and shim decide about. What
each is stands in decisions.tsv."""
from __future__ import annotations

from concurrent.futures import Future, ThreadPoolExecutor
from typing import Callable, Dict, List, NamedTuple, Sequence, Set

from checks.firmware.images import (
    GUID_ENTRY, PKCS7_ENTRY, SBAT, Shape, authenticode, image, marked, padded, pkcs7, with_table,
)
from checks.firmware.keys import Keys, Tools

# EFI_CERT_TYPE_PKCS7_GUID.
PKCS7_GUID = bytes.fromhex("9dd2af4adf68ee498aa9347d375665a7")
COMPONENT, LEVEL = "bootpart", 3

Make = Callable[[bytes], bytes]


def with_component(generation: str) -> bytes:
    """SBAT text with the component of the level in this generation."""
    return SBAT.replace(b"candidate,1", f"{COMPONENT},{generation}".encode())


BELOW, AT, ABOVE = (with_component(str(LEVEL + one)) for one in (-1, 0, 1))
# A row below the level, of six fields.
ROW = f"{COMPONENT},{LEVEL - 1},a,b,c,d\n".encode()


def with_entry(kind: int, body: bytes) -> Make:
    """With a table of this entry."""
    return lambda data: with_table(data, (kind, body))


class Candidate(NamedTuple):
    name: str
    image: bytes
    listed: Set[str]
    revoked: Set[str]


class Candidates:
    """The candidates in their order, and the digests that the desk lists and revokes for them."""

    def __init__(self, code: bytes, keys: Keys, tools: Tools) -> None:
        self.code, self.keys, self.tools = code, keys, tools
        self.coming: List[Future[Candidate]] = []
        # (most of the time is that of the tools' processes)
        with ThreadPoolExecutor(8) as self.several:
            for group in (
                self.plain, self.shapes, self.signatures, self.chains, self.algorithms,
                self.levels, self.vendors,
            ):
                group()
        self.all = [one.result() for one in self.coming]
        self.listed: Set[str] = set().union(*(one.listed for one in self.all))
        self.revoked: Set[str] = set().union(*(one.revoked for one in self.all))

    def add(self, name: str, make: Make, *acts: str, **shape: object) -> None:
        """A candidate. Acts are words: `list` or `revoke`, then which digest."""
        wanted = Shape(**shape)  # type: ignore[arg-type]
        self.coming.append(self.several.submit(self.made, name, make, acts, wanted))

    def made(self, name: str, make: Make, acts: Sequence[str], shape: Shape) -> Candidate:
        """It has code of its own, so that no two have one digest."""
        unsigned = image(marked(self.code, name), shape)
        made = make(unsigned)
        found = Candidate(name, made, set(), set())
        digests: Dict[str, Callable[[], bytes]] = {
            "digest": lambda: authenticode(made),
            "signing": lambda: authenticode(padded(made)),
            "unsigned digest": lambda: authenticode(unsigned),
            "unsigned signing": lambda: authenticode(padded(unsigned)),
        }
        for act in acts:
            word, which = act.split(" ", 1)
            (found.listed if word == "list" else found.revoked).add(digests[which]().hex())
        return found

    # ---- how an image is made

    def sbsign(self, *names: str) -> Make:
        return lambda data: self.tools.sbsign(data, *names)

    def entry(
        self, data: bytes, name: str, *others: str, algorithm: str = "sha256", spoilt: bool = False
    ) -> bytes:
        """SignedData of a signer that carries its certificate and these others."""
        carried = [self.keys.certificates[one] for one in (name, *others)]
        digest = authenticode(padded(data), algorithm)
        return pkcs7(digest, self.keys.signer(name), algorithm, carried, spoilt)

    def own(self, name: str, *others: str, algorithm: str = "sha256", spoilt: bool = False) -> Make:
        """Signed by this check's own signer."""
        return lambda data: with_table(
            data, (PKCS7_ENTRY, self.entry(data, name, *others, algorithm=algorithm, spoilt=spoilt))
        )

    # ---- the groups

    def plain(self) -> None:
        self.add("u-listed", bytes, "list digest")
        self.add("u-unlisted", bytes)
        self.add("u-revoked", bytes, "list digest", "revoke digest")
        self.add("s-listed", self.sbsign("listed"))
        self.add("s-other", self.sbsign("other"))
        self.add("s-pesign", self.tools.pesign)
        self.add("s-osslsigncode", self.tools.osslsigncode)
        self.add("s-own", self.own("listed"))
        self.add("s-unlisted", self.sbsign("unlisted"))
        self.add("s-digest-revoked", self.sbsign("listed"), "revoke digest")
        self.add("s-revoked", self.sbsign("revoked"))
        self.add("s-revoked-unlisted", self.sbsign("revoked-unlisted"))
        self.add("s-expired", self.own("expired"))
        self.add("d-unlisted", self.sbsign("unlisted"), "list digest")
        self.add("d-revoked", self.sbsign("revoked"), "list digest")
        self.add("d-both", self.sbsign("listed"), "list digest")

    def shapes(self) -> None:
        odd, listed = b"odd", self.sbsign("listed")
        self.add("odd-u-listed", bytes, "list digest", tail=odd)
        self.add("odd-u-signing-revoked", bytes, "list digest", "revoke signing", tail=odd)
        self.add("odd-u-signing-listed", bytes, "list signing", tail=odd)
        self.add("odd-s-sbsign", listed, tail=odd)
        self.add("odd-s-pesign", self.tools.pesign, tail=odd)
        self.add("odd-s-digest-revoked", listed, "revoke unsigned digest", tail=odd)
        self.add("odd-s-signing-revoked", listed, "revoke unsigned signing", tail=odd)
        self.add("gap-u-listed", bytes, "list digest", gap=64)
        self.add("gap-u-revoked", bytes, "list digest", "revoke digest", gap=64)
        self.add("gap-s-own", self.own("listed"), gap=64)
        self.add("gap-s-pesign", self.tools.pesign, gap=64)
        self.add("gap-s-sbsign", listed, gap=64)
        self.add("gap-s-osslsigncode", self.tools.osslsigncode, gap=64)
        self.add("gap-s-revoked", self.own("listed"), "revoke digest", gap=64)
        self.add("tail-u-listed", bytes, "list digest", tail=b"T" * 200)
        self.add("tail-s-sbsign", listed, tail=b"T" * 200)
        self.add("tail-s-pesign", self.tools.pesign, tail=b"T" * 200)
        self.add("after-table", lambda data: listed(data) + bytes(8))
        self.add("reverse-u-listed", bytes, "list digest", reverse=True)
        self.add("reverse-s", self.own("listed"), reverse=True)
        self.add("four-u-listed", bytes, "list digest", directories=4)
        self.add("four-u-unlisted", bytes, directories=4)
        self.add("pe32-u-listed", bytes, "list digest", pe32=True)
        self.add("pe32-u-unlisted", bytes, pe32=True)
        self.add("pe32-s-listed", listed, pe32=True)
        self.add("pe32-s-unlisted", self.sbsign("unlisted"), pe32=True)
        self.add("driver-u-listed", bytes, "list digest", subsystem=12)

    def signatures(self) -> None:
        self.add("two-unlisted-listed", self.sbsign("unlisted", "listed"))
        self.add("two-listed-unlisted", self.sbsign("listed", "unlisted"))
        self.add("two-listed-revoked", self.sbsign("listed", "revoked"))
        self.add("two-revoked-listed", self.sbsign("revoked", "listed"))
        self.add("two-digest-revoked", self.sbsign("listed", "other"), "revoke digest")
        self.add("two-gone-listed", lambda data: with_table(
            data, (PKCS7_ENTRY, self.entry(data, "leaf-gone", "ca-gone")),
            (PKCS7_ENTRY, self.entry(data, "listed")),
        ))
        self.add("carries-revoked", self.own("listed", "revoked"))
        self.add("carries-listed", self.own("unlisted", "listed"))
        self.add("spoilt", self.own("listed", spoilt=True))
        self.add("patched", self.patched)
        self.add("patched-listed", self.patched, "list digest")
        self.add("twin", self.own("twin"))

    def patched(self, data: bytes) -> bytes:
        """Signed, and then a byte of its headers changed."""
        made = bytearray(self.tools.sbsign(data, "listed"))
        made[0x3F0] ^= 1
        return bytes(made)

    def chains(self) -> None:
        self.add("leaf-alone", self.sbsign("leaf"))
        self.add("leaf-chain", self.own("leaf", "ca"))
        self.add("leaf-revoked", self.own("leaf-revoked", "ca"))
        self.add("inter-chain", self.own("leaf-inter", "inter", "ca"))
        self.add("gone-alone", self.sbsign("leaf-gone"))
        self.add("gone-chain", self.own("leaf-gone", "ca-gone"))
        self.add("gone-digest", self.sbsign("leaf-gone"), "list digest")
        self.add("first-alone", self.sbsign("leaf-first"))
        self.add("first-chain", self.own("leaf-first", "ca-gone"))
        self.add("last-alone", self.sbsign("leaf-last"))
        self.add("last-chain", self.own("leaf-last", "ca-gone"))
        self.add("never-alone", self.sbsign("leaf-never"))
        self.add("never-chain", self.own("leaf-never", "ca-never"))

    def algorithms(self) -> None:
        self.add("sha384", self.own("listed", algorithm="sha384"))
        self.add("sha384-digest-revoked", self.own("listed", algorithm="sha384"), "revoke digest")
        self.add("sha384-digest-listed", self.own("unlisted", algorithm="sha384"), "list digest")
        self.add("sha384-revoked", self.own("revoked", algorithm="sha384"))
        self.add("sha512-digest-revoked", self.own("listed", algorithm="sha512"), "revoke digest")
        self.add("sha1", self.own("listed", algorithm="sha1"))
        self.add("sha1-digest-revoked", self.own("listed", algorithm="sha1"), "revoke digest")
        self.add("sha384-and-sha256", lambda data: with_table(
            data, (PKCS7_ENTRY, self.entry(data, "listed", algorithm="sha384")),
            (PKCS7_ENTRY, self.entry(data, "other")),
        ), "revoke digest")
        self.add("elliptic", self.own("elliptic"))
        garbage = b"X" * 248
        for name, kind in (("type-unknown", 0xEF0), ("type-garbage", PKCS7_ENTRY)):
            self.add(name, with_entry(kind, garbage), "list digest")
        self.add("type-guid", lambda data: with_table(
            data, (GUID_ENTRY, PKCS7_GUID + self.entry(data, "listed"))
        ))
        self.add("type-guid-revoked", lambda data: with_table(
            data, (PKCS7_ENTRY, self.entry(data, "listed")),
            (GUID_ENTRY, PKCS7_GUID + self.entry(data, "revoked")),
        ))

    def levels(self) -> None:
        listed = self.sbsign("listed")
        self.add("sbat-below", listed, sbat=BELOW)
        self.add("sbat-at", listed, sbat=AT)
        self.add("sbat-above", listed, sbat=ABOVE)
        self.add("sbat-below-digest", bytes, "list digest", sbat=BELOW)
        self.add("sbat-none", listed, sbat=None)
        self.add("sbat-two", listed, twice=True)
        self.add("sbat-65538", listed, sbat=with_component("65538"))
        self.add("sbat-empty-field", listed, sbat=SBAT.replace(b"check,candidate,1", b"check,,1"))
        self.add("sbat-five-fields", listed, sbat=SBAT.replace(b",https://example.invalid", b""))
        self.add("sbat-cr", listed, sbat=BELOW.replace(b"\n", b"\r"))
        self.add("sbat-zero-byte", listed, sbat=SBAT + b"\0" + ROW)
        self.add("sbat-virtual", listed, sbat=SBAT + ROW, sbat_virtual=len(SBAT))
        self.add("sbat-crlf", listed, sbat=BELOW.replace(b"\n", b"\r\n"))
        self.add("sbat-bom", listed, sbat=b"\xef\xbb\xbf" + BELOW)
        self.add("sbat-zeros", listed, sbat=with_component(f"{LEVEL - 1:010}"))

    def vendors(self) -> None:
        self.add("vendor-leaf", self.sbsign("vendor-leaf"))
        self.add("vendor-leaf-revoked", self.sbsign("vendor-leaf-revoked"))
        self.add("vendor-digest-revoked", self.sbsign("vendor-leaf"), "revoke digest")
        self.add("vendor-sbat-below", self.sbsign("vendor-leaf"), sbat=BELOW)
