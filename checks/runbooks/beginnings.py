"""How things stand before each page of packaging/runbooks, and what holds beside its print."""
from __future__ import annotations

import contextlib
import json
import subprocess
from pathlib import Path
from typing import Callable

from checks.runbooks.machine import DESK, Machine
from checks.runbooks.standby import follows
from checks.support.images import OWNER, authenticode, sha256
from checks.support.ports import listening
from checks.support.says import expect, fail
from checks.support.tools import EXAMPLES

SIGNED = (EXAMPLES / "loader.efi").read_bytes()
CERTIFICATE = (EXAMPLES / "signer.der").read_bytes()
# The place of the certificate table in the image, and of its entry in the headers.
TABLE, ENTRY = 1536, 232
Step = Callable[[Machine], None]


def signed(number: int) -> bytes:
    """A signed image that differs from the others."""
    return SIGNED[:752] + number.to_bytes(3, "big") + SIGNED[755:]


def plain(number: int) -> bytes:
    """The same before it was signed."""
    image = signed(number)
    return image[:ENTRY] + bytes(8) + image[ENTRY + 8 : TABLE]


def named(digest: str) -> bytes:
    return json.dumps({"digest": digest}).encode()


def vote(note: str) -> bytes:
    return json.dumps({"note": note, "vote": "yes"}).encode()


# ---- before


def worked(machine: Machine) -> None:
    """Two images were signed, and a third one is asked for; an image is revoked."""
    (machine.room / "srv/images").mkdir()
    machine.does("olga", "/db/certificates", CERTIFICATE)
    for number in (1, 2, 3):
        for data in (plain(number), signed(number)):
            machine.writes(f"srv/images/{sha256(data)}", data, mode=0o644)
        machine.does("ann", "/requests", plain(number), Desk_Title=f"grub2 2.12-{number}")
    for number in (1, 2):
        for reviewer in ("rita", "raul"):
            machine.does(reviewer, f"/requests/{number}/review", vote("built again"))
        machine.does("sid", f"/requests/{number}/return", signed(number))
    machine.does("olga", "/dbx/digests", named(f"{7:064}"))
    machine.does("otto", "/proposals/1/confirm", b"")


def publishes(machine: Machine, first: str = " --first") -> None:
    """What was decided is published."""
    token = machine.tokens.get("publisher", machine.tokens["olga"])
    machine.writes("etc/kovelamiru-publish.token", f"{token}\n")
    words = f"--url http://127.0.0.1:{machine.proxy} --owner {OWNER}"
    options = f"PUBLISH='{words} --program {machine.room}/bin/desk%s'\n"
    machine.writes("etc/default/kovelamiru-publish", options % first, mode=0o644)
    machine.system("start", "kovelamiru-publish")
    machine.writes("etc/default/kovelamiru-publish", options % "", mode=0o644)


def embargo(machine: Machine) -> None:
    worked(machine)
    publishes(machine)
    (folder := machine.room / "srv/embargo").mkdir()
    for number in range(1, 301):
        machine.writes(f"srv/embargo/grubx64-{number:03d}.efi", signed(number), "olga")
    machine.owned(folder, "olga", 0o700)


def full_disk(machine: Machine) -> None:
    """The desk is on a small disk of its own, most of which something else has."""
    worked(machine)
    machine.writes("srv/grubx64.efi", plain(9), mode=0o644)
    machine.system("stop", "kovelamiru-desk")
    state, saved = machine.room / "state", machine.room / "saved"
    state.rename(saved)
    state.mkdir()
    subprocess.run(["mount", "-t", "tmpfs", "-o", "size=4m", "none", str(state)], check=True)
    machine.owned(state, DESK, 0o700)
    for file in saved.iterdir():
        machine.writes(f"state/{file.name}", file.read_bytes(), DESK)
    with open(state / "old-copy.tar.gz", "wb", buffering=0) as filler:
        with contextlib.suppress(OSError):
            while True:
                filler.write(bytes(4096))
    machine.system("start", "kovelamiru-desk")


PERSON = """\
INSERT INTO people(name,role,token) VALUES('p{0}','submitter',x'{0:064x}');
INSERT INTO calls(no,caller,key,text,reply)
    SELECT MAX(no)+1,'console','k-p{0}','add-person p{0} submitter {0:064x}','added p{0}'
    FROM calls;
"""


def full_desk(machine: Machine) -> None:
    """It has as many people as a desk takes: 1,000. One image that is listed by its certificate is
    revoked."""
    machine.system("stop", "kovelamiru-desk")
    for name in ("publisher", "standby"):
        machine.enrol(name, "officer")
    machine.system("start", "kovelamiru-desk")
    worked(machine)
    machine.does("olga", "/db/digests", named(f"{9:064}"))
    machine.does("olga", "/level", b'{"component":"grub","generation":3,"stamp":2026112700}')
    machine.does("otto", "/proposals/2/confirm", b"")
    machine.does("olga", "/dbx/digests", named(authenticode(signed(2))))
    machine.does("otto", "/proposals/3/confirm", b"")
    publishes(machine)
    machine.system("stop", "kovelamiru-desk")
    rows = "".join(PERSON.format(one) for one in range(1000 - len(machine.tokens)))
    subprocess.run(
        ["sqlite3", machine.room / "state/desk.db"], input=f"BEGIN;\n{rows}COMMIT;\n", text=True,
        check=True, **machine.account(DESK),
    )
    machine.system("start", "kovelamiru-desk")
    publishes(machine, "")


def newest(machine: Machine) -> None:
    """Votes, a returned file, a person, revocations and a submission after what worked left."""
    machine.does("rita", "/requests/3/review", vote(""))
    machine.does("raul", "/requests/3/review", vote("the same bytes"))
    machine.does("sid", "/requests/3/return", signed(3))
    machine.system("stop", "kovelamiru-desk")
    machine.run("enrol", "desk.db", "rosa", "reviewer", "enrol-rosa", given=b"ab" * 32)
    machine.system("start", "kovelamiru-desk")
    rows = "".join(f"sha256,{one:064d},\n" for one in range(20, 30))
    table = f"kind,value,generation\n{rows}sbat,grub,3\n".encode()
    machine.does("olga", "/imports/csv", table, Desk_Stamp="2026112701")
    machine.does("otto", "/proposals/2/confirm", b"")
    machine.does("ann", "/requests", plain(4), Desk_Title="grub2 2.12-4")


def restore(machine: Machine) -> None:
    worked(machine)
    newest(machine)
    publishes(machine)


def leaks(machine: Machine, name: str) -> None:
    """This person's token stands in nginx's list of those that leaked."""
    line = '"~^\\Q%s\\E$" "";\n' % machine.tokens[name]
    machine.writes("etc/nginx/kovelamiru-desk.leaked", line)


def stands_by(machine: Machine) -> Machine:
    """Another machine serves the desk, and this one follows it as a standby and a witness. ann's
    last call comes after the standby's last run. The other machine."""
    leaks(machine, "raul")
    worked(machine)
    newest(machine)
    old = machine.moves_out()
    follows(machine, old)
    old.does("ann", "/requests", plain(5), Desk_Title="grub2 2.12-5")
    return old


def moved(machine: Machine) -> None:
    stands_by(machine)


def machine_lost(machine: Machine) -> None:
    """It burnt; a mirror has what was published."""
    old = stands_by(machine)
    told = (machine.room / "journal.desk-standby").read_text().splitlines(keepends=True)[-5:]
    (machine.room / "srv/mirror").mkdir()
    machine.writes("srv/mirror/audit.txt", "".join(told), mode=0o644)
    old.burn()


def leaked(machine: Machine) -> None:
    """Somebody else has otto's token, and proposes. raul's leaked before, and is refused."""
    worked(machine)
    machine.does("otto", "/dbx/digests", named(f"{8:064}"), machine.proxy)
    leaks(machine, "raul")
    machine.system("reload", "nginx")


def lost(machine: Machine) -> None:
    leaked(machine)
    machine.writes("root/otto.token", f"{machine.tokens['otto']}\n")


BEFORE: dict[str, Step] = {
    "embargo": embargo, "leaked-token": leaked, "full-disk": full_disk, "full-desk": full_desk,
    "restore": restore, "machine-lost": machine_lost, "machine-moved": moved,
    "new-officer": worked, "lost-officer": lost, "publishing": worked,
}

# ---- what holds beside what is printed


def refused(machine: Machine) -> None:
    """Both tokens that leaked are nobody's, and the list of them is root's."""
    for name in ("otto", "raul"):
        for token in (machine.tokens[name], machine.tokens[name] + "\t"):
            machine.tokens["leaked"] = token
            status, _ = machine.asks("leaked", "/level", port=machine.proxy)
            expect(status, 401, f"a token of {name} that leaked")
    listed = (machine.room / "etc/nginx/kovelamiru-desk.leaked").stat().st_mode
    expect(listed & 0o077, 0, "others may read the list of leaked tokens")


def shows_what(machine: Machine, before: Path) -> None:
    """The desk that was made again exports what the lost one does."""
    machine.system("stop", "kovelamiru-desk")
    for path in (before, before.parent):
        machine.owned(path, DESK, 0o700)
    for export in ("dbx", "db", "level", "minutes"):
        made = machine.run(export, "desk.db")
        expect(made, machine.run(export, str(before)), f"{export} of the desk made again")
    machine.system("start", "kovelamiru-desk")


def same_again(machine: Machine) -> None:
    (machine.room / "root").chmod(0o711)
    shows_what(machine, machine.room / "root" / "desk-before" / "desk.db")


def repeated(machine: Machine) -> None:
    """What had been answered is repeated under its keys: the last call is made or, after a move,
    there already, and one that the standby had takes effect once. A token that leaked stays
    refused. What the standby signed is shown."""
    assert machine.old
    status, _ = machine.asks("raul", "/level", port=machine.proxy)
    expect(status, 401, "a token that leaked before the machine was lost")
    machine.does("ann", "/requests", plain(5), Desk_Title="grub2 2.12-5")
    machine.keys -= 2
    machine.does("ann", "/requests", plain(4), Desk_Title="grub2 2.12-4")
    shown = machine.asks("ann", "/witness/checkpoint.txt", port=machine.proxy)
    expect(shown, (200, (machine.room / "witness/checkpoint.txt").read_bytes()), "the checkpoint")
    (machine.old.room / "root").chmod(0o711)
    shows_what(machine, machine.old.room / "root" / "desk-before" / "desk.db")


def nobodys(machine: Machine) -> None:
    """The token for publishing is root's, and no person's; it reads the minutes. What is published
    is the desk's, and the site shows it, but for the minutes."""
    path = machine.room / "etc/kovelamiru-publish.token"
    token, others = path.read_text().strip(), path.stat().st_mode & 0o077
    if token in machine.tokens.values() or others:
        fail("the token for publishing is somebody's, or others read it")
    machine.tokens["publisher"] = token
    status, people = machine.asks("publisher", "/people", port=machine.proxy)
    if status != 200 or {"name": "publisher", "role": "officer"} not in json.loads(people):
        fail(f"the officer for publishing: {status} {people.decode()}")
    if "--first" in (machine.room / "etc/default/kovelamiru-publish").read_text():
        fail("--first stays")
    audit = (machine.room / "publish/published/audit.txt").read_text().splitlines()
    expect(audit[:1], ["calls 19"], "what is published")
    link = machine.room / "publish/published"
    for path in (link / "dbx.esl", link.resolve() / "SHA256SUMS", link / "minutes.txt"):
        status, data = machine.asks("ann", f"/{path.parent.name}/{path.name}", port=machine.proxy)
        if path.name == "minutes.txt" and machine.users:
            assert status == 403
        else:
            expect((status, data), (200, path.read_bytes()), str(path))


# The verdicts on the revoked image of full-desk, each that differs from the one before.
VERDICTS: list[str] = []


def never_allowed(machine: Machine) -> None:
    """The revoked image isn't allowed by the desk, old or new, at any time."""
    if listening(machine.port):
        status, verdict = machine.asks("ann", "/verdict", signed(2))
        if status != 200 or b'"allowed"' in verdict:
            fail(f"a verdict on a revoked image: {status} {verdict.decode()}")
        told = json.loads(verdict)["verdict"]
        if told not in VERDICTS[-1:]:
            VERDICTS.append(told)


def judged(_: Machine) -> None:
    """The old desk gave a verdict on it, and the new one did before and after it revoked."""
    expect(VERDICTS, ["dbx-digest", "not-listed", "dbx-digest"], "verdicts on a revoked image")


# After each command of a page, and after the last one.
DURING: dict[str, Step] = {"full-desk": never_allowed}
AFTER: dict[str, Step] = {
    "full-desk": judged, "leaked-token": refused, "lost-officer": refused, "publishing": nobodys,
    "restore": same_again, "machine-lost": repeated,
    "machine-moved": repeated,
}
