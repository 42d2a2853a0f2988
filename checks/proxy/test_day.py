"""A day at the desk behind nginx; and what stays where the desk is stopped."""
from __future__ import annotations

import re

from checks.proxy.site import LEVEL, Proxied, Site, refusal
from checks.support.images import SIGNED, digest
from checks.support.program import Program, copy_of
from checks.support.says import expect
from checks.support.server import Server
from checks.support.steps import named, raising, vote
from checks.support.waits import until


def confirmed(number: int, digests: int, components: int) -> dict[str, object]:
    counts = {"certificates": 0, "components": components, "digests": digests, "passed": 0}
    return {**counts, "proposal": number, "reply": "confirmed"}


def proposed(number: int, reply: str = "proposed") -> dict[str, object]:
    return {"proposal": number, "reply": reply}


def test_each_call_of_a_day_is_answered(proxied: Proxied) -> None:
    """Each with a body takes two connections of the desk, another one, as a stranger's."""
    site = proxied(25)
    title, chunked = ("-H", "Desk-Title: a loader"), ("-H", "Transfer-Encoding: chunked")
    submitted = {"reply": "submitted", "request": 1}
    for _ in range(2):
        site.accepts("ann", "k1", "/requests", SIGNED, submitted, *title)
    for who, state in (("rita", "open"), ("raul", "approved")):
        reply = {"reply": "reviewed", "request": 1, "state": state}
        site.accepts(who, "k1", "/requests/1/review", vote("yes", "read it"), reply)
    returned = {"reply": "returned", "request": 1}
    site.accepts("sid", "k1", "/requests/1/return", SIGNED, returned)
    site.accepts("ann", "k2", "/verdict", SIGNED, {"verdict": "allowed"})
    site.accepts("olga", "k2", "/dbx/digests", named(digest("aa")), proposed(1))
    own = site.post("olga", "k3", "/proposals/1/confirm", b"")
    expect(own[:2], refusal(38), "a Confirm of one's own")
    site.accepts("otto", "k1", "/proposals/1/confirm", b"", confirmed(1, 1, 0))
    # (a body in chunks has no length: nginx counts it for the desk)
    site.accepts("olga", "k4", "/level", raising("grub", 3, 2024010100), proposed(2), *chunked)
    site.accepts("otto", "k2", "/proposals/2/drop", b"", proposed(2, "dropped"))
    expect(site.ask("olga", "/level")[:2], (200, LEVEL), "the level")
    expect(site.ask("nobody", "/level")[:2], refusal(20), "a stranger")
    expect(site.ask("ann", "/nowhere")[:2], refusal(53), "no route")
    site.server.ended()
    line = r'(?m)^20[0-9T:+-]* 127\.0\.0\.1 POST /requests 200 [0-9.]* "k1"$'
    # (nginx writes its line after the answer)
    until(20, line, lambda: re.search(line, site.nginx.log), lambda: site.nginx.log)


def test_what_is_acknowledged_stays_where_the_desk_is_stopped(
    site: Site, desk: Program
) -> None:
    """A copy of the file with its log is the desk; the file alone is an older one, or none."""
    site.accepts("olga", "k7", "/level", raising("grub", 3, 2024010100), proposed(1))
    site.server.kill()
    minutes = desk.minutes(copy_of(site.path, desk.at("copy.db")))
    assert minutes.endswith(b"\tproposed 1\n") and minutes.count(b"\tolga\tk7\t") == 1
    alone = desk.file("alone.db", open(site.path, "rb").read())
    assert desk.run("minutes", alone).out != minutes, "the log held nothing"
    confirm = ("otto", "k4", "/proposals/1/confirm", b"")
    assert site.post(*confirm).status == 502
    for who in ("nobody", "olga"):
        assert site.ask(who, "/level").status == 502
    with Server(desk, site.path, 3) as again:
        site.nginx.desk_port = again.port
        site.nginx.write()
        site.nginx.reload()
        site.accepts(*confirm, confirmed(1, 0, 1))
        level = site.ask("olga", "/level")
        expect(level[:2], (200, b"sbat,1,2024010100\ngrub,3\n"), "the level")
        again.ended()
    assert desk.minutes(site.path).endswith(b"\totto\tk4\tconfirm 1\tconfirmed 1 0 0 1 0\n")
