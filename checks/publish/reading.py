"""index.html and dbx.json in a published folder, beside the lists there, by a reading of their own.

The page has no markup but its own, no link but to files that are there, and no word that a person
typed; nor has dbx.json one."""
from __future__ import annotations

import base64
import hashlib
import json
import re
import uuid
from html.parser import HTMLParser
from pathlib import Path
from typing import Any, NamedTuple

from checks.publish.place import key_of
from checks.support.images import parted
from checks.support.says import expect
from checks.support.wire import TYPES

TAGS = set(
    "html head meta title style body main h1 h2 p time table thead tbody tr th td a code ul li pre"
    .split()
)
ATTRIBUTES = set("lang charset name content http-equiv class scope href datetime".split())
ROWS = (
    ("dbx", "sha256", "revoked images, by digest: SHA256"),
    ("dbx", "x509_sha256", "revoked certificates: X509_SHA256"),
    ("db", "x509", "listed certificates: X509"),
    ("db", "sha256", "listed images, by digest: SHA256"),
)
NAMED = 100


class Entry(NamedTuple):
    """An entry of a list: what is behind its owner begins with its digest."""

    kind: str
    owner: str
    rest: bytes

    @property
    def digest(self) -> str:
        return self.rest[:32].hex()


def entries(data: bytes) -> list[Entry]:
    names = {kind: name for name, kind in TYPES.items()}
    return [
        Entry(names[kind], str(uuid.UUID(bytes_le=one[:16])), one[16:])
        for kind, its in parted(data) for one in its
    ]


class Folder:
    """A published folder."""

    def __init__(self, path: Path) -> None:
        self.path, self.sums = path, (path / "SHA256SUMS").read_text()
        self.date, self.calls = key_of(self.sums, "date"), key_of(self.sums, "calls")
        self.lists = {name: entries((path / f"{name}.esl").read_bytes()) for name in ("dbx", "db")}
        rows = [line.split(",") for line in (path / "level.csv").read_text().splitlines()]
        self.stamp, self.level = rows[0][2], {name: generation for name, generation in rows[1:]}
        self.audit = (path / "audit.txt").read_text()

    def firsts(self) -> dict[str, Any]:
        """When each entry of dbx was published first, as its dbx.json says."""
        file = self.path / "dbx.json"
        rows = json.loads(file.read_text())["dbx"] if file.exists() else []
        told = {row["digest"]: row["first_published"] for row in rows}
        return {one.digest: told.get(one.digest) for one in self.lists["dbx"]}


class Page(HTMLParser):
    """The text of each element that has some, and the rows of each table."""

    def __init__(self, data: str) -> None:
        super().__init__()
        self.open: list[str] = []
        self.texts: list[tuple[str, str]] = []
        self.tables: list[list[list[str]]] = []
        self.links: list[str] = []
        self.metas: list[dict[str, str | None]] = []
        self.feed(data)
        self.close()
        expect(self.open, [], "elements left open")

    def handle_starttag(self, tag: str, attrs: list[tuple[str, str | None]]) -> None:
        assert tag in TAGS, f"an element {tag}"
        expect({name for name, _ in attrs} - ATTRIBUTES, set(), "attributes")
        self.links += [value or "" for name, value in attrs if name == "href"]
        if tag == "meta":
            self.metas.append(dict(attrs))
            return
        self.open.append(tag)
        self.texts.append((tag, ""))
        if tag == "table":
            self.tables.append([])
        if tag == "tr":
            self.tables[-1].append([])
        if tag in ("td", "th"):
            self.tables[-1][-1].append("")

    def handle_endtag(self, tag: str) -> None:
        expect(self.open.pop(), tag, "an end of an element")

    def handle_data(self, data: str) -> None:
        self.texts.append((self.open[-1] if self.open else "", data))
        if "td" in self.open or "th" in self.open:
            self.tables[-1][-1][-1] += data

    def of(self, tag: str) -> list[str]:
        return [text for its, text in self.texts if its == tag and text]


def reads_json(now: Folder, before: Folder | None) -> None:
    old = before.firsts() if before else {}
    rows = [
        {"digest": one.digest, "first_published": old.get(one.digest, now.date), "kind": one.kind,
         "owner": one.owner}
        for one in now.lists["dbx"]
    ]
    told: dict[str, Any] = dict(line.split(" ") for line in now.audit.splitlines())
    kinds = [one.kind for one in now.lists["db"]]
    wanted: dict[str, Any] = {
        "audit": {**told, "calls": int(told["calls"])}, "date": now.date, "dbx": rows,
        "db": {kind: kinds.count(kind) for kind in ("sha256", "x509")},
        "level": {
            "stamp": int(now.stamp), "generations": {one: int(at) for one, at in now.level.items()}
        },
        "since": {"calls": int(before.calls), "date": before.date} if before else None,
    }
    text = (now.path / "dbx.json").read_text()
    expect(json.loads(text), wanted, "dbx.json")
    assert "<" not in text, "dbx.json has markup"


def reads_frame(now: Folder, page: Page) -> None:
    """Its policy and its links."""
    sum_of = hashlib.sha256("".join(page.of("style")).encode()).digest()
    policy = next(one["content"] for one in page.metas if "http-equiv" in one) or ""
    begins = f"default-src 'none'; style-src 'sha256-{base64.b64encode(sum_of).decode()}'"
    assert policy.startswith(begins), f"the policy {policy}"
    for link in page.links:
        plain = re.fullmatch("[A-Za-z0-9.-]+", link)
        assert plain and (now.path / link).is_file(), f"a link to {link}"
    summed = set(re.findall("^[0-9a-f]{64}  (.*)$", now.sums, re.M))
    expect(summed - {"index.html", *page.links}, set(), "no link to")


def reads_tables(now: Folder, before: Folder | None, page: Page) -> None:
    rows = []
    for name, kind, text in ROWS:
        has = {one for one in now.lists[name] if one.kind == kind}
        had = {one for one in before.lists[name] if one.kind == kind} if before else set()
        row = [f"{name}.esl", text, str(len(has))]
        rows.append([*row, str(len(has - had)), str(len(had - has))] if before else row)
    expect(page.tables[0][1:], rows, "the table of lists")
    level = page.tables[1][1:] if len(page.tables) > 2 else []
    wanted = sorted(now.level.items())
    expect([row[:2] for row in level], [[*one] for one in wanted], "the table of the level")
    had_level = before.level if before else now.level
    changes = [
        "" if had_level.get(one) == at else f"raised from {had_level[one]}" if one in had_level
        else "new"
        for one, at in wanted
    ]
    expect([row[2] for row in level], changes, "the changes of the level")


def reads_news(now: Folder, before: Folder | None, page: Page) -> None:
    shown = [text for text in page.of("code") if re.fullmatch("[0-9a-f]{64}", text)]
    gone = {one.rest for one in before.lists["dbx"]} if before else set()
    came = [one for one in now.lists["dbx"] if before and one.rest not in gone]
    new = {
        kind: [one.digest for one in came if one.kind == kind] for kind in ("sha256", "x509_sha256")
    }
    wanted = [one for digests in new.values() for one in digests[:NAMED]]
    expect(shown, wanted, "what is new")
    for kind, digests in new.items():
        more = f"And {len(digests) - NAMED} more: "
        assert len(digests) <= NAMED or more in " ".join(page.of("p")), f"{more} of {kind}"


def reads_checks(now: Folder, page: Page) -> None:
    """What it says of the audit and of the commands to check it."""
    commands, printed = page.of("pre")
    expect(printed, now.audit.rstrip("\n"), "what the audit prints")
    first, second = commands.splitlines()
    assert first.endswith("sha256sum -c SHA256SUMS"), f"the commands {commands}"
    assert re.fullmatch("desk audit [0-9a-f-]{36} minutes.txt", second), f"the commands {commands}"
    public = bool((now.path / "minutes.txt").stat().st_mode & 4)
    signed = (now.path / "SHA256SUMS.sig").exists()
    found = ("ssh-keygen" in commands, "minutes.txt" in page.links)
    expect(found, (signed, public), "what is said of others")
    promises = "finds a damaged file, but no mirror that lies" not in " ".join(page.of("p"))
    expect(promises, signed, "whether it promises to find a mirror that lies")


def reads(folder: Path, folder_before: Path | None, private: list[str]) -> None:
    """Both files are right, after what was published before, or as the first."""
    now, before = Folder(folder), Folder(folder_before) if folder_before else None
    for name in ("index.html", "dbx.json"):
        text = (folder / name).read_text()
        expect([one for one in private if one in text], [], f"{name} has {private}")
    reads_json(now, before)
    page = Page((folder / "index.html").read_text())
    reads_frame(now, page)
    reads_tables(now, before, page)
    reads_news(now, before, page)
    for one in (now, before) if before else (now,):
        date = f"{one.date[:10]} {one.date[11:19]} UTC"
        assert date in page.of("time"), f"no date {date}"
    reads_checks(now, page)
