"""checks.firmware.decide PROGRAM: makes the candidates and a desk, boots firmware and shim, and
compares what they decide with decisions.tsv; see ../firmware.sh. The working directory has the code
of loader and candidates, and shim's source in `shim`."""
from __future__ import annotations

import hashlib
import os
import shutil
import sys
import time
from concurrent.futures import ThreadPoolExecutor
from pathlib import Path
from typing import Dict, List, NamedTuple

from checks.firmware.boots import AUTHENTICATED, KEK, KEK_KEY, OWNER, Boot, update
from checks.firmware.candidates import Candidates
from checks.firmware.desks import GIVEN, LISTED, MISSING, REVOKED, Exports, decide
from checks.firmware.keys import Keys, Tools, run
from checks.firmware.page import typed
from checks.support.images import X509_KIND, certificate_list, digest_list, signature_list
from checks.support.program import Program
from checks.support.says import fail

# What has to be typed of INTEROPERATION, besides shim's build.
TITLES = (
    "The exports", "Updates for firmware", "shim's form of dbx", "A certificate that nobody gave",
    "A signed level for shim", "Debian's own list",
)
# Digests of a dbx that this firmware's variables have room for; one more is refused.
ROOM = 702
TABLE = os.path.join(os.path.dirname(os.path.realpath(__file__)), "decisions.tsv")


class Row(NamedTuple):
    """A row of decisions.tsv."""

    name: str
    what: str
    desk: str
    db: str  # firmware's decision with db alone
    firmware: str  # with db and dbx
    dbx: str  # shim, with dbx as its vendor_dbx
    shim: str  # shim, with shim-dbx.esl
    why_firmware: str  # why firmware doesn't decide as the desk does
    why_shim: str


def content(path: str) -> bytes:
    with open(path, "rb") as file:
        return file.read()


def keep(path: str, data: bytes) -> None:
    with open(path, "wb") as file:
        file.write(data)


def made_keys() -> Keys:
    """And the files that the page names."""
    keys = Keys()
    run("openssl", "rsa", "-in", KEK_KEY, "-passin", "pass:snakeoil", "-out", "snakeoil.key")
    shutil.copyfile(KEK, "snakeoil.pem")
    keys.read("snakeoil")
    for name, of in (("KEK", "snakeoil"), ("signer", "listed"), ("missing", MISSING)):
        for kind in ("key", "pem"):
            os.symlink(f"{of}.{kind}", f"{name}.{kind}")
    return keys


# ---- firmware


def firmware_volume(
    candidates: Candidates, exports: Exports, program: Program, tools: Tools
) -> Boot:
    """Each candidate is loaded without the desk's lists and with db alone, and tried with both."""
    boot = Boot("firmware", candidates, tools)
    for name in ("db", "dbx"):
        boot.write(f"{name}.auth", content(f"{name}.auth"))
    update("db", exports.elliptic, "firmware/elliptic.auth", "2030-01-01 00:00:00")
    for count, stamp in ((ROOM, "2030-01-01 00:00:00"), (ROOM + 1, "2030-01-02 00:00:00")):
        digests = (hashlib.sha256(str(number).encode()).hexdigest() for number in range(count))
        lines = "".join(f"{digest}\n" for digest in digests)
        packed = program.gives("pack", OWNER, given=lines.encode())
        update("dbx", packed, f"firmware/{count}.auth", stamp)
    boot.steps("plan", [
        "get SecureBoot g", *(f"load none:{name} {path}" for name, path in boot.names),
        f"set db d {AUTHENTICATED} /db.auth",
        *(f"load db:{name} {path}" for name, path in boot.names),
        f"set dbx d {AUTHENTICATED} /dbx.auth", "get db d", "get dbx d",
        *(f"try {name} {path}" for name, path in boot.names),
        f"set db d {AUTHENTICATED} /elliptic.auth", f"set dbx d {AUTHENTICATED} /{ROOM}.auth",
        f"set dbx d {AUTHENTICATED} /{ROOM + 1}.auth",
    ])
    return boot


def firmware_decided(boot: Boot, candidates: Candidates) -> None:
    """What a table of candidates doesn't have: the variables, the control, the limits."""
    if boot.variable("SecureBoot") != b"\1":
        fail("Secure Boot is off")
    for name in ("db", "dbx"):
        boot.sets(name, f"/{name}.auth")
        if boot.variable(name) != content(f"{name}.esl"):
            fail(f"{name} in firmware isn't the desk's")
    names = [one.name for one in candidates.all]
    passed = [name for name in names if boot.status("load", f"none:{name}") != "denied"]
    if passed:
        fail(f"firmware loads without the desk's lists: {passed}")
    boot.sets("dbx", f"/{ROOM}.auth")
    for name, path in (("db", "/elliptic.auth"), ("dbx", f"/{ROOM + 1}.auth")):
        if any(one.rest == path and one.status == "0" * 16 for one in boot.lines):
            fail(f"firmware takes {path}")


# ---- shim


def build_shim(program: Program) -> None:
    """`shimx64.efi` in shim's folder, with `shim-dbx.esl`; by Debian's flags, without NX."""
    for name in ("cert.o", "shimx64.so", "shimx64.efi"):
        if os.path.exists(f"shim/{name}"):
            os.remove(f"shim/{name}")
    flags = f"-j{os.cpu_count()} POST_PROCESS_PE_FLAGS=-N"
    typed("shim's vendor_dbx", program.path, MAKEFLAGS=flags)


def shim_volume(name: str, candidates: Candidates, tools: Tools) -> Boot:
    """Firmware has db and no dbx; the loader begins shim, which begins it as its second stage."""
    boot = Boot(name, candidates, tools)
    boot.write("EFI/check/grubx64.efi", tools.sbsign(boot.loader, "listed"))
    boot.write("EFI/check/shimx64.efi", tools.sbsign(content("shim/shimx64.efi"), "listed"))
    boot.write("db.auth", content("db.auth"))
    level = []
    if name == "dbx":
        boot.write("level.csv", content("level.csv"))
        level = ["set SbatLevel s 3 /level.csv"]
    else:
        boot.write("EFI/check/revocations_sbat.efi", content("revocations_sbat.efi"))
    start = "try shim /EFI/check/shimx64.efi"
    boot.steps("plan", [f"set db d {AUTHENTICATED} /db.auth", *level, start])
    steps = [f"{word} {one} {path}" for one, path in boot.names for word in ("verify", "try")]
    boot.steps("shimplan", ["get SbatLevel s", *steps])
    return boot


def shim_decision(boot: Boot, name: str) -> str:
    """By Verify and by LoadImage; they are alike, or both are told."""
    verified, tried = boot.status("verify", name), boot.decision(name)
    alike = verified == ("loads" if tried == "runs" else tried)
    return tried if alike else f"{verified} by Verify, {tried}"


# ---- the table


def table() -> List[Row]:
    with open(TABLE, encoding="utf-8") as file:
        return [Row(*line.rstrip("\n").split("\t")) for line in file if not line.startswith("#")]


def differs(verdict: str, *decisions: str) -> bool:
    """Whether one of them doesn't go with the desk's verdict."""
    return any((one in ("runs", "loads")) != (verdict == "allowed") for one in decisions)


def compare(found: List[Row]) -> int:
    """How many rows aren't the table's, or lack a cause; each is printed as it would be there."""
    wanted = {one.name: one for one in table()}
    wrong = 0
    for row in found:
        was = wanted.pop(row.name, Row(row.name, *[""] * 8))
        row = row._replace(what=was.what, why_firmware=was.why_firmware, why_shim=was.why_shim)
        causes = (bool(row.why_firmware), bool(row.why_shim))
        due = (differs(row.desk, row.firmware), differs(row.desk, row.dbx, row.shim))
        if row != was or causes != due:
            wrong += 1
            print("\t".join(was), "\t".join(row), sep="\n", end="\n\n", file=sys.stderr)
    if wanted:
        fail(f"the table has more rows: {list(wanted)}")
    return wrong


def whole(keys: Keys, candidates: Candidates, shim: bytes) -> None:
    """The lists have all that was revoked: no decision tells of some, as by SHA-384 signatures."""
    images = digest_list(sorted(candidates.revoked))
    certificates = sorted(REVOKED, key=keys.tbs)
    bodies = [keys.certificates[one] for one in certificates if one in (*LISTED, *GIVEN)]
    bare = [keys.tbs(one) for one in certificates if one not in (*LISTED, *GIVEN)]
    one_each = b"".join(signature_list(X509_KIND, [one]) for one in bodies)
    if content("dbx.esl") != images + certificate_list([keys.tbs(one) for one in certificates]):
        fail("dbx isn't what was revoked")
    if shim != images + one_each + certificate_list(bare):
        fail("shim-dbx.esl isn't what was revoked")
    if content("vendor_dbx.esl") != shim + signature_list(X509_KIND, [keys.certificates[MISSING]]):
        fail("vendor_dbx.esl isn't shim-dbx.esl with one more certificate")


def main() -> None:
    began = time.monotonic()
    keys = made_keys()
    tools = Tools()
    candidates = Candidates(content("candidate.bin"), keys, tools)
    os.mkdir("desks")
    program = Program(os.path.realpath(sys.argv[1]), Path("desks").resolve())
    with ThreadPoolExecutor(3) as boots:
        exports = decide(program, keys, candidates)
        program.copied(exports.desk, os.path.abspath("desk.db"))
        for title in TITLES:
            typed(title, program.path, owner=OWNER)
        firmware = firmware_volume(candidates, exports, program, tools)
        running = [boots.submit(firmware.run)]
        lists, shims = {"shim": content("shim-dbx.esl"), "dbx": content("dbx.esl")}, {}
        for name, built_in in lists.items():
            keep("shim-dbx.esl", built_in)
            build_shim(program)
            shims[name] = shim_volume(name, candidates, tools)
            running.append(boots.submit(shims[name].run))
        for boot in running:
            boot.result()
    firmware_decided(firmware, candidates)
    for shim in shims.values():
        if shim.variable("SbatLevel").rstrip(b"\0") != content("level.csv").rstrip(b"\0"):
            fail(f"the level of {shim.folder}: {shim.variable('SbatLevel')!r}")
    rows = [
        Row(
            name, "", verdict, firmware.status("load", f"db:{name}"), firmware.decision(name),
            shim_decision(shims["dbx"], name), shim_decision(shims["shim"], name), "", "",
        )
        for name, verdict in exports.verdicts.items()
    ]
    wrong = compare(rows)
    if wrong:
        fail(f"{wrong} of {len(rows)} candidates aren't decided as decisions.tsv has them")
    whole(keys, candidates, lists["shim"])
    told(rows, time.monotonic() - began)


def told(rows: List[Row], seconds: float) -> None:
    ways: Dict[str, int] = {
        "firmware": sum(not differs(one.desk, one.firmware) for one in rows),
        "shim with dbx": sum(not differs(one.desk, one.dbx) for one in rows),
        "shim with shim-dbx.esl": sum(not differs(one.desk, one.shim) for one in rows),
    }
    said = ", ".join(f"{name} {count}" for name, count in ways.items())
    print(f"{len(rows)} images decided as they have to be, in {seconds:.0f} s; as the desk: {said}")


if __name__ == "__main__":
    main()
