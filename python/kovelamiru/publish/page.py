"""index.html and dbx.json: what is published, for people and for programs. desk-publish makes them
of the lists that it publishes.

They aren't proved, and nothing is decided by them. They have no word of the minutes: no name, no
title, no note, no token, and no reason without --public-reasons, which index.html alone shows. What
a person typed and is in them, as the names of components, becomes no markup. The same lists, date
and last publication give the same bytes.
"""
from __future__ import annotations

import base64
import hashlib
import json
from dataclasses import dataclass
from html import escape
from typing import Optional, Sequence

from ..faults import broken
from ..shim import without_body
from ..siglists import guid
from ..words import counted
from .desk import Found, audit_of, entries, level_of
from .reasons import why
from .sums import day

# An entry of dbx by its kind and its digest.
Entry = tuple[str, str]
# Digests of one kind that the page names; dbx.json has all.
NAMED = 100
STYLE = """
:root { color-scheme: light dark; --ground: #fff; --text: #1b1e22; --quiet: #575d65; \
--line: #d8dbe0; --band: #f4f5f7; --link: #0b57a4 }
@media (prefers-color-scheme: dark) {
    :root { --ground: #15181b; --text: #e4e7ea; --quiet: #a3abb3; \
--line: #353b42; --band: #1d2125; --link: #84bbff }
}
body { margin: 0 auto; padding: 1rem 1.25rem 3rem; max-width: 56rem; \
background: var(--ground); color: var(--text);
    font: 1rem/1.5 system-ui, "Noto Sans", "DejaVu Sans", sans-serif; overflow-wrap: break-word }
h1 { font-size: 1.6rem; margin: 1rem 0 0.25rem }
h2 { font-size: 1.15rem; margin: 2rem 0 0.5rem }
a { color: var(--link) }
.quiet { color: var(--quiet) }
table { border-collapse: collapse; width: 100% }
th, td { text-align: left; vertical-align: top; padding: 0.35rem 0.6rem 0.35rem 0; \
border-bottom: 1px solid var(--line) }
th:last-child, td:last-child { padding-right: 0 }
th { font-weight: normal }
thead th { color: var(--quiet) }
tbody a { white-space: nowrap }
.number { text-align: right }
code, pre { overflow-wrap: anywhere; \
font-family: ui-monospace, "Noto Sans Mono", "DejaVu Sans Mono", monospace; font-size: 0.875rem }
pre { background: var(--band); border: 1px solid var(--line); padding: 0.75rem; \
white-space: pre-wrap }
ul { padding-left: 1.25rem }
@media (max-width: 24rem) { body { padding-inline: 0.75rem } table { font-size: 0.9rem } }
"""


@dataclass(frozen=True)
class Before:
    """The publication before this one."""

    found: Found
    date: int
    # When each entry of its dbx was published first; none for one that was published before there
    # was a dbx.json.
    firsts: dict[Entry, Optional[str]]
    # The time of the last authenticated update of each list.
    times: dict[str, Optional[str]]


@dataclass(frozen=True)
class Publication:
    """What is published now, and what was before."""

    owner: str
    found: Found
    date: int
    audit: bytes
    shim: bytes
    signed: bool
    public_minutes: bool
    public_reasons: bool
    updates: Sequence[str]
    before: Optional[Before]

    @property
    def held(self) -> bool:
        """Whether a change of db waits for consent."""
        return self.found.held is not None


# ---- for programs


def named(dbx: bytes) -> list[tuple[Entry, str]]:
    """Each entry of a dbx with its owner, in its order."""
    return [((kind, entry[16:48].hex()), guid(entry[:16])) for kind, entry in entries(dbx, "dbx")]


def firsts_of(data: bytes) -> dict[Entry, Optional[str]]:
    """What an earlier dbx.json says of each entry."""
    try:
        rows = json.loads(data)["dbx"]
        return {(row["kind"], row["digest"]): row["first_published"] for row in rows}
    except (ValueError, KeyError, TypeError):
        broken("the published dbx.json isn't one")


def spelled(value: object) -> str:
    """JSON without spaces, each object's keys in ascending order; no byte of it begins markup,
    whatever a mirror calls the file."""
    return json.dumps(value, sort_keys=True, separators=(",", ":")).replace("<", "\\u003c")


def dbx_json(now: Publication) -> bytes:
    """An entry a line."""
    old: dict[Entry, Optional[str]] = {}
    if now.before:
        old = {entry: now.before.firsts.get(entry) for entry, _ in named(now.before.found.dbx)}
    rows = []
    for entry, owner in named(now.found.dbx):
        first = old[entry] if entry in old else day(now.date)
        row = {"digest": entry[1], "first_published": first, "kind": entry[0], "owner": owner}
        rows.append("\n" + spelled(row))
    stamp, generations = level_of(now.found.level)
    db = {kind: len(bodies(now.found.db, kind)) for kind in ("sha256", "x509")}
    since = {"calls": now.before.found.calls, "date": day(now.before.date)} if now.before else None
    audit: dict[str, object] = {**audit_of(now.audit)}
    audit["calls"] = now.found.calls
    parts = [
        ("audit", spelled(audit)),
        ("date", spelled(day(now.date))), ("db", spelled(db)), ("dbx", f"[{','.join(rows)}\n]"),
        ("level", spelled({"generations": generations, "stamp": stamp})),
        ("since", spelled(since))]
    whole = ",\n".join(f"{spelled(name)}:{text}" for name, text in parts)
    return f"{{\n{whole}\n}}\n".encode()


# ---- for people


def index(now: Publication) -> bytes:
    style = base64.b64encode(hashlib.sha256(STYLE.encode()).digest()).decode()
    policy = (f"default-src 'none'; style-src 'sha256-{style}'; base-uri 'none';"
              " form-action 'none'")
    body = "\n".join([*head(now), *lists(now), *level(now), *check(now), *files(now), *new(now)])
    return f"""<!doctype html>
<html lang="en">
<head>
<meta charset="utf-8">
<meta name="viewport" content="width=device-width, initial-scale=1">
<meta http-equiv="Content-Security-Policy" content="{policy}">
<title>Secure Boot lists of {day(now.date)[:10]}</title>
<style>{STYLE}</style>
</head>
<body>
<main>
{body}
</main>
</body>
</html>
""".encode()


def moment(date: int) -> str:
    iso = day(date)
    return f'<time datetime="{iso}">{iso[:10]} {iso[11:19]} UTC</time>'


def head(now: Publication) -> list[str]:
    last = "It is the first publication."
    if now.before:
        calls = counted(now.before.found.calls, "call")
        last = f"The one before is of {moment(now.before.date)}, after {calls}."
    calls = counted(now.found.calls, "call")
    return ["<h1>Secure Boot lists</h1>",
            f"<p>Published {moment(now.date)}, after {calls} of the desk. {last}</p>"]


def table(columns: Sequence[str], rows: Sequence[Sequence[str]], numbers: set[int]) -> list[str]:
    """Of cells that are markup; the first of each row is its head."""
    kinds = [' class="number"' if at in numbers else "" for at in range(len(columns))]
    heads = "".join(f'<th scope="col"{kind}>{text}</th>' for kind, text in zip(kinds, columns))
    made = ["<table>", f"<thead><tr>{heads}</tr></thead>", "<tbody>"]
    for row in rows:
        cells = "".join(f"<td{kind}>{text}</td>" for kind, text in zip(kinds[1:], row[1:]))
        made.append(f'<tr><th scope="row">{row[0]}</th>{cells}</tr>')
    return [*made, "</tbody>", "</table>"]


def lists(now: Publication) -> list[str]:
    """How many entries dbx and db have, and how many came and went."""
    rows = []
    for name, kind, text in (
        ("dbx", "sha256", "revoked images, by digest: <code>SHA256</code>"),
        ("dbx", "x509_sha256", "revoked certificates: <code>X509_SHA256</code>"),
        ("db", "x509", "listed certificates: <code>X509</code>"),
        ("db", "sha256", "listed images, by digest: <code>SHA256</code>")):
        has = bodies(getattr(now.found, name), kind)
        had = bodies(getattr(now.before.found, name), kind) if now.before else set()
        row = [f'<a href="{name}.esl">{name}.esl</a>', text, f"{len(has):,}"]
        rows.append([*row, f"{len(has - had):,}", f"{len(had - has):,}"] if now.before else row)
    columns = ["File", "Entries", "Count", *(["New", "Gone"] if now.before else [])]
    return ["<h2>dbx and db</h2>", *table(columns, rows, {2, 3, 4})]


def bodies(data: bytes, kind: str) -> set[bytes]:
    return {entry for its, entry in entries(data, "a list") if its == kind}


def level(now: Publication) -> list[str]:
    """The level, with the generations of before where they were raised."""
    stamp, generations = level_of(now.found.level)
    old = level_of(now.before.found.level)[1] if now.before else generations
    rows = []
    for name, generation in sorted(generations.items()):
        raised = f"raised from {old[name]}" if name in old else "new"
        change = "" if old.get(name) == generation else raised
        rows.append([f"<code>{escape(name)}</code>", str(generation), change])
    made = ["<h2>SBAT level</h2>",
            f"<p>Stamp {stamp}. shim refuses an image with a component of a lower generation.</p>"]
    if not rows:
        return [*made, "<p>No component has a generation.</p>"]
    return [*made, *table(["Component", "Generation", "Change"], rows, {1})]


def check(now: Publication) -> list[str]:
    sums, signers = "sha256sum -c SHA256SUMS", ""
    if now.signed:
        sums = ("ssh-keygen -Y verify -f SIGNERS -I NAME -n kovelamiru-publish -s SHA256SUMS.sig"
                f" < SHA256SUMS && {sums}")
        signers = ("; SIGNERS has the line <code>NAME KEY</code> of who publishes, by another way"
                   " than this mirror")
    minutes = ('with <a href="minutes.txt">minutes.txt</a>'
               if now.public_minutes else "for whoever was handed the minutes")
    finds = "checks all of them" if now.signed else (
        "finds a damaged file, but no mirror that lies: SHA256SUMS isn't signed")
    return [
        "<h2>Check it</h2>",
        f"<p>Whoever has a mirror can change its page, so check the files. The first line {finds}"
        f"{signers}. The second, {minutes}, prints what stands below it.</p>",
        f"<pre>{escape(sums)}\n{escape(f'desk audit {now.owner} minutes.txt')}</pre>",
        f"<pre>{escape(now.audit.decode().rstrip())}</pre>"]


def files(now: Publication) -> list[str]:
    bare = len(without_body(now.shim))
    lacks = f" shim passes over {bare:,} of its certificates, which nobody gave the desk."
    about = [
        ("dbx.esl", "what is revoked, in signature lists for firmware"),
        ("db.esl", "what is listed"), ("level.csv", "the SBAT level, for shim"),
        ("shim-dbx.esl",
         f"what is revoked, as shim reads it in its vendor_dbx.{lacks if bare else ''}"),
        *((name, f"an authenticated update of {name[:-5]}") for name in now.updates),
        ("dbx.json", "dbx for programs: each entry, and when it was published first"),
        ("audit.txt", "what <code>desk audit</code> says of the minutes"),
        *([("audit-db.txt", f"the same of the first {now.found.db_calls:,} calls: db.esl is theirs,"
            " since a later change of db waits for a second officer")] if now.held else []),
        ("checkpoint.txt", "which minutes and lists these are, to be kept"),
        *([("checkpoint.txt.sig", "its signature")] if now.signed else []),
        *([("minutes.txt", "each call that the desk accepted")] if now.public_minutes else []),
        ("SHA256SUMS", "the SHA-256 of each file, and the folder that has these very ones"),
        *([("SHA256SUMS.sig", "its signature")] if now.signed else [])]
    rows = [[f'<a href="{name}">{name}</a>', text] for name, text in about]
    return [
        "<h2>Files</h2>", *table(["File", "What it is"], rows, set()),
        f'<p class="quiet">Each entry has the owner {escape(now.owner)}. That dbx, db and the level'
        " follow from the minutes is shown by <code>desk audit</code>, which is proved. This page"
        " and dbx.json aren't.</p>"]


def new(now: Publication) -> list[str]:
    """What came into dbx since the last publication."""
    if not now.before:
        return []
    old = {entry for entry, _ in named(now.before.found.dbx)}
    came = [entry for entry, _ in named(now.found.dbx) if entry not in old]
    made = why(now.found.minutes, now.before.found.calls) if now.public_reasons else []
    made.append(f"<h2>New in dbx since {moment(now.before.date)}</h2>")
    if not came:
        return [*made, "<p>Nothing.</p>"]
    for kind, one in (("sha256", "image"), ("x509_sha256", "certificate")):
        digests = [digest for its, digest in came if its == kind]
        if digests:
            made.append(f"<p>{counted(len(digests), one)} ({kind.upper()}):</p>")
            made.append("<ul>")
            made += [f"<li><code>{digest}</code></li>" for digest in digests[:NAMED]] + ["</ul>"]
        if len(digests) > NAMED:
            more = len(digests) - NAMED
            made.append(f'<p>And {more:,} more: <a href="dbx.json">dbx.json</a> has all.</p>')
    return made
