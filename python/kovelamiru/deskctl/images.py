"""An image's facts, by the desk, or by its program where the desk doesn't tell."""
from __future__ import annotations

import hashlib
import os
import re
import shutil
import struct
import subprocess

from ..answers import shaped
from ..brought import BROUGHT
from ..facts import Facts
from ..faults import Refused, explained, reason, wrong
from ..files import IMAGE_LIMIT, looks_like, read_file
from ..http import Call
from ..pe import authenticode
from ..words import printable
from .run import Run


def by_desk(run: Run) -> bool:
    """Whether the desk is asked: it is named, and no program is."""
    return bool(run.settings.url) and not run.settings.program


def facts_of(run: Run, path: str) -> Facts:
    return facts_read_by(run, path, read_file(path, IMAGE_LIMIT, "an image has"))


def facts_read_by(run: Run, path: str, data: bytes) -> Facts:
    """The facts of these bytes, which are the file's."""
    try:
        facts = (shaped(Facts, run.desk.ask(Call("POST", "/facts", data)).object())
                 if by_desk(run) else by_program(run, path))
    except Refused as refused:
        refused.more = ([f"{path} is {looks_like(data)}."] if not data.startswith(b"MZ") else [
            f"The file: {path}", *unread_steps(data, refused.name)])
        raise explained(refused, {})
    if facts.file != hashlib.sha256(data).hexdigest():
        wrong(f"{path} changed while it was read")
    return facts


# Refusals of an image whose layout is good: its digests are there, though it can't be judged.
UNREAD = ("Der", "TwoSbat", "SbatRow", "TooLong")


def unread_steps(data: bytes, name: str) -> list[str]:
    """How such an image is revoked."""
    try:
        digests = dict.fromkeys(authenticode(data)) if name in UNREAD else {}
    except struct.error:
        digests = {}
    words = " ".join(f"--digest {digest}" for digest in digests)
    return [f"{BROUGHT['unread']} deskctl revoke {words}"] if digests else []


def desk_program(run: Run) -> str:
    found = shutil.which(run.settings.program or "desk")
    if not found:
        wrong("the digests of an image come from the program `desk`, which isn't here",
              "Install kovelamiru-desk, or name it by --program FILE.")
    return found


def by_program(run: Run, path: str) -> Facts:
    """By the desk's program. It is given no environment of ours."""
    named = path if os.path.isabs(path) else os.path.join(".", path)
    try:
        ran = subprocess.run([desk_program(run), "facts", named], stdin=subprocess.DEVNULL,
                             capture_output=True, check=False, timeout=600, env={
                                 "PATH": os.environ.get("PATH", os.defpath),
                                 "LC_ALL": "C"})
    except (OSError, subprocess.TimeoutExpired) as error:
        wrong(f"desk facts {path}: {reason(error)}")
    said = ran.stderr.decode("utf-8", "replace").strip()
    refusal = re.fullmatch(r"refused (\d+) (\w+)(?: at (\d+))?", said)
    if refusal:
        raise Refused(int(refusal[1]), refusal[2], int(refusal[3]) if refusal[3] else None)
    if ran.returncode:
        wrong(f"desk facts {path}: status {ran.returncode}: {printable(said)}")
    return facts_read(path, ran.stdout.decode("ascii", "replace"))


def facts_read(path: str, text: str) -> Facts:
    """Lines of `desk facts`."""
    lines = [line.split(" ", 1) for line in text.splitlines()]
    one = {line[0]: line[1] for line in lines if len(line) == 2}
    many = {
        name: [line[1] for line in lines if line[0] == name]
        for name in ("certificate", "component")}
    try:
        parts = [line.rsplit(" ", 1) for line in many["component"]]
        return Facts(int(one["length"]), int(one["gap"]), one["file"], one["digest"],
                     one["signing"], many["certificate"],
                     [[name, int(generation)] for name, generation in parts])
    except (KeyError, ValueError):
        wrong(f"`desk facts {path}` doesn't speak as deskctl knows it",
              "Do both come from the same version?")
