"""What the Rattle sources say of refusals, statuses, routes and lists, read from their text."""
from __future__ import annotations

import re
from typing import Dict, List, Optional, Set, Tuple

from checks.support.tools import ROOT

CRATES = ROOT / "crates"

LIMITS = {
    "image": ("base/src/limits.rt", "LONGEST_IMAGE"),
    "body": ("http_requests/src/route.rt", "LONGEST_BODY"),
    "certificate": ("desk_types/src/certificate.rt", "LONGEST_CERTIFICATE"),
    "entries": ("desk_types/src/import.rt", "MOST_IMPORTED"),
    "title": ("desk_types/src/forms.rt", "LONGEST_TITLE"),
    "note": ("desk_types/src/forms.rt", "LONGEST_NOTE"),
    "reason": ("desk_types/src/forms.rt", "LONGEST_REASON"),
}
# Refusals of a request, one or more, and their status.
ARM = re.compile(r"((?:[\s|]*Refused::\w+(?:\(\w+\))?)+) =>[\s{]*Status::(\w+)")
# A variant of an enum with its comment.
VARIANT = re.compile(r"((?:    /// .*\n)+)    (\w+)(?:\([^)]*\))?,\n")


def source(path: str) -> str:
    return (CRATES / path).read_text(encoding="utf-8")


def between(text: str, begin: str, end: str = "\n}\n") -> str:
    return text.split(begin, 1)[1].split(end, 1)[0] + "\n"


def variants(path: str, enum: str) -> Dict[str, str]:
    """Each variant of an enum with its comment, in one line."""
    body = between(source(path), f"pub enum {enum} {{\n")
    return {
        name: " ".join(line.strip()[4:] for line in comment.splitlines())
        for comment, name in VARIANT.findall(body)
    }


def refusals() -> List[Tuple[int, str, str, str]]:
    """The table of refusals: number, name, `device` or `input`, the sentences of its comment."""
    path = "base/src/refusal.rt"
    text, sentences = source(path), variants(path, "Refusal")
    numbers = dict(re.findall(r"Refusal::(\w+) => (\d+),", text))
    names = dict(re.findall(r'Refusal::(\w+) => "(\w+)",', text))
    devices = between(text, "pub fn is_device(", "=> true")
    device = set(re.findall(r"Refusal::(\w+)", devices))
    return [
        (int(numbers[one]), names[one], "device" if one in device else "input", sentences[one])
        for one in sentences
    ]


def statuses() -> Dict[str, str]:
    """The phrase of each status, by its number. (A variant is its phrase without spaces.)"""
    found = variants("http_responses/src/status.rt", "Status")
    phrases = {name: " ".join(re.findall("[A-Z][a-z]*", name)) for name in found}
    phrases["Ok"] = "OK"
    return {comment[:3]: phrases[name] for name, comment in found.items()}


def status_of_refused() -> Dict[str, int]:
    """The status of each refusal that a request's response can have."""
    numbers = {phrase.replace(" ", ""): int(status) for status, phrase in statuses().items()}
    body = between(source("http_responses/src/refused.rt"), "pub fn status(self)")
    found: Dict[str, int] = {}
    for pattern, status in ARM.findall(body):
        found.update((name, numbers[status]) for name in re.findall(r"Refused::(\w+)", pattern))
    outages = variants("http_responses/src/outage.rt", "Outage")
    return {**found, **{name: numbers["ServiceUnavailable"] for name in outages}}


def routes() -> Set[Tuple[str, str]]:
    """Each path of the router with its methods."""
    found: Set[Tuple[str, str]] = set()
    text = source("http_requests/specs/Paths.antt")
    rows = re.findall(r'added \(codes "([^"]+)"\) \((\w+)', text)
    methods = {"get": ["get"], "GetAndPost": ["get", "post"]}
    for path, resource in rows:
        found.update((path, method) for method in methods.get(resource, ["post"]))
    return found


def route_comments() -> Set[Tuple[str, str]]:
    """Each path that a variant of a route names, with the method of its enum."""
    found: Set[Tuple[str, str]] = set()
    for enum, method in (("GetRoute", "get"), ("ImageRoute", "post"), ("CommandRoute", "post")):
        for comment in variants("http_requests/src/route.rt", enum).values():
            found.update((path, method) for path in re.findall("^`([^`]+)`", comment))
    return found


def lists() -> Dict[str, Tuple[str, List[Optional[int]]]]:
    """The kinds of signature lists that the desk keeps: the GUID as stored, and the least and the
    most bytes of an entry."""
    text = source("siglist/src/kind.rt")
    sizes = {name: int(size) for name, size in re.findall(r"const (\w+_SIZE): u32 = (\d+);", text)}
    suits = dict(re.findall(r"Kind::(\w+) => (.*),", between(text, "fn suits(")))
    found: Dict[str, Tuple[str, List[Optional[int]]]] = {}
    for name, octets in re.findall(r"/// EFI_CERT_(\w+)_GUID, .*\n.*= \[\n([^\]]*)\]", text):
        form = suits[{"X509": "X509"}.get(name, name.title().replace("_", ""))]
        least = re.fullmatch(r"(\d+) <= size", form)
        size = None if least else sizes[form.split()[2]]
        stored = "".join(re.findall(r"0x(\w\w)", octets))
        found[name.lower()] = stored, [int(least[1]), None] if least else [size, size]
    return found


def limits() -> Dict[str, int]:
    """The limits that are constants of the sources, by their names in page/wire/limits.json."""
    found = {}
    for name, (path, constant) in LIMITS.items():
        number = re.search(rf"const {constant}: \w+ = ([0-9_]+);", source(path))
        assert number, f"{path} has no {constant}"
        found[name] = int(number[1])
    return {**found, "generation": 2**32 - 1}


def words() -> Dict[str, List[str]]:
    """The words of roles, states of requests and votes, as texts have them, by their enums."""
    found: Dict[str, List[str]] = {}
    for enum, word in re.findall(r'(\w+)::\w+ => "([a-z]+)"', source("desk_types/src/words.rt")):
        found.setdefault(enum, []).append(word)
    return found
