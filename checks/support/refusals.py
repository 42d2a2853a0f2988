"""Requests that HTTP itself or the desk's routes refuse, and the responses that are due."""
from __future__ import annotations

from checks.support.images import PLAIN, SHA256_KIND, TABLE, changed, digest, with_table
from checks.support.messages import Field, got, posted, refused, request, said, token

NAMED = said({"digest": digest("aa")})
# A signature list of SHA256 whose one entry has 47 bytes.
SHORT_DIGESTS = SHA256_KIND + bytes.fromhex("4b000000" "00000000" "2f000000") + bytes(47)


def asked(method: str, path: str, *fields: Field, body: bytes | None = None) -> bytes:
    """A request of olga's with just these fields."""
    return request(method, path, [("Desk-Token", token("olga")), *fields], body)


def key(value: str = "unused") -> Field:
    return ("Desk-Key", value)


def judged(image: bytes) -> bytes:
    """A request for the verdict on this image."""
    return posted("ann", "unused", "/verdict", image)


def other_method(allow: str) -> bytes:
    return refused(54, None, f"Allow: {allow}")


REFUSED = {
    "no token": (request("GET", "/level", []), refused(20)),
    "nobody's token": (
        request("GET", "/level", [("Desk-Token", "nobody-token-0001")]), refused(20)
    ),
    "a query": (asked("GET", "/level?x=1"), refused(53)),
    "the minutes without a number": (asked("GET", "/minutes"), refused(53)),
    "the minutes from a number with a zero in front": (asked("GET", "/minutes/012"), refused(53)),
    "DELETE": (asked("DELETE", "/level"), other_method("GET, POST")),
    "a command without a length": (asked("POST", "/dbx/digests", key()), refused(55)),
    "a command in chunks": (
        asked("POST", "/dbx/digests", key(), ("Transfer-Encoding", "chunked")), refused(57)
    ),
    "a command of five million bytes": (
        asked("POST", "/dbx/digests", key(), ("Content-Length", "5000000")), refused(56)
    ),
    "a key with a space": (asked("POST", "/dbx/digests", key("a key"), body=NAMED), refused(51)),
    "the key comes before the number": (
        asked("POST", "/proposals/010/confirm", key("a key"), body=b""), refused(51)
    ),
    "a number with a zero in front": (
        asked("POST", "/proposals/010/confirm", key(), body=b""), refused(37)
    ),
    "a request that isn't there": (asked("GET", "/requests/10"), refused(23)),
    "the caller comes before the number": (request("GET", "/proposals/x", []), refused(20)),
    "the number comes before the role": (got("ann", "/proposals/x"), refused(37)),
    "the role comes before the proposal": (got("ann", "/proposals/10"), refused(21)),
    "facts without a length": (asked("POST", "/facts"), refused(55)),
    "a request without a title": (posted("ann", "unused", "/requests", PLAIN), refused(51)),
    "zeros for an image": (
        posted("ann", "unused", "/requests", bytes(5_000_000), ("Desk-Title", "long")), refused(2)
    ),
    "no PE where the header points": (judged(changed(PLAIN, (64, "00000000"))), refused(3)),
    "a certificate table that is cut": (judged(with_table(PLAIN, TABLE[:9])), refused(9)),
    "JSON without the member": (
        asked("POST", "/dbx/digests", key(), body=b'{"note":"fine"}'), refused(52)
    ),
    "JSON for a level": (asked("POST", "/imports/level", key(), body=NAMED), refused(12, 1)),
    "JSON for signature lists": (asked("POST", "/imports/dbx", key(), body=NAMED), refused(15, 0)),
    "digests of 31 bytes": (
        asked("POST", "/imports/dbx", key(), body=SHORT_DIGESTS), refused(16, 0)
    ),
    "JSON for CSV": (asked("POST", "/imports/csv", key(), body=NAMED), refused(19, 0))
}
