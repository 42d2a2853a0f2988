"""Minutes in words, by the table of sentences that the page has, too: page/wire/sentences.json."""
from __future__ import annotations

import re
from dataclasses import dataclass
from typing import Any, Match, Optional, Pattern

from .described import described
from .words import counted


@dataclass(frozen=True)
class Row:
    """A command's text with its reply's, by their words in order, and what they say."""

    kind: str
    command: list[str]
    reply: list[str]
    sentence: str


@dataclass(frozen=True)
class Said:
    """A call's two texts, read: its row of the table, and the values by the row's words."""

    row: Row
    values: dict[str, str]

    def items(self, word: str) -> list[str]:
        """The items of a list."""
        text = self.values.get(word, "-")
        return [] if text == "-" else text.split(",")

    def components(self) -> list[tuple[str, int]]:
        """The components that it names, each with its generation."""
        pairs = [one.split(":", 1) for one in self.items("COMPONENTS")]
        if self.has("COMPONENT"):
            pairs.append([self.values["GENERATION"], self.values["COMPONENT"]])
        return [(name, int(generation)) for generation, name in pairs]

    def digests(self) -> list[str]:
        return self.items("DIGESTS") or self.alone("DIGEST")

    def certificates(self) -> list[str]:
        return self.items("CERTIFICATES") or self.alone("CERTIFICATE")

    def has(self, word: str) -> bool:
        return word in self.values

    def alone(self, word: str) -> list[str]:
        return [self.values[word]] if self.has(word) else []


@dataclass(frozen=True)
class Minute:
    """A line of the minutes; `said` is nothing where its texts aren't those of the table."""

    number: int
    caller: str
    key: str
    text: str
    reply: str
    said: Optional[Said]

    def time(self) -> str:
        """The time that its key begins with, by the clock of whoever made the key."""
        found = TIME.match(self.key)
        return "{}-{}-{} {}:{}:{}".format(*found.groups()) if found else ""

    def sentence(self) -> str:
        if not self.said:
            return f"{self.caller}: {self.text} ({self.reply})"
        return spoken(self.said, self.caller)


TABLE: dict[str, Any] = described("sentences")
TIME: Pattern[str] = re.compile(TABLE["time"])
FORMS: dict[str, Pattern[str]] = {
    name: re.compile(f"(?:{form})\\Z")
    for name, form in TABLE["forms"].items()}
ROWS: dict[str, list[Row]] = {}
for _one in TABLE["rows"]:
    _command = _one["command"].split(" ")
    ROWS.setdefault(_command[0], []).append(
        Row(_one["kind"], _command, _one["reply"].split(" "), _one["sentence"]))


def matched(words: list[str], text: str, values: dict[str, str]) -> bool:
    """Reads a text by a row's words into the values. The last word takes what is left."""
    parts = text.split(" ", len(words) - 1)
    if len(parts) != len(words):
        return False
    for word, part in zip(words, parts):
        if word not in FORMS:
            if part != word:
                return False
        elif not FORMS[word].match(part) or values.setdefault(word, part) != part:
            return False
    return True


def said(text: str, reply: str) -> Optional[Said]:
    """A command's text and its reply's by the table's row, if it has one."""
    for row in ROWS.get(text.split(" ", 1)[0], []):
        values: dict[str, str] = {}
        if matched(row.command, text, values) and matched(row.reply, reply, values):
            return Said(row, values)
    return None


def counts(name: str, found: Said) -> str:
    """What there is of each kind, in words."""
    parts, row = [], TABLE["counts"][name]
    for word, one, many in row["of"]:
        # (a digest may have no letter)
        count = int(found.values[word]) if word.startswith("NEW_") else len(found.items(word))
        parts += [counted(count, one, many)] if count else []
    last = " and " + parts[-1] if parts[1:] else ""
    return ", ".join(parts[:-1] if last else parts) + last or row["none"]


def spoken(found: Said, caller: str) -> str:
    """The row's sentence with its values. A part in brackets is left out where it has nothing."""
    def value(match: Match[str]) -> str:
        word = match[1]
        if word == "CALLER":
            return caller
        return counts(word, found) if word in TABLE["counts"] else found.values[word]

    def part(match: Match[str]) -> str:
        words = re.findall(r"\{(\w+)\}", match[1])
        nothing = [word for word in words if found.values[word] == TABLE["nothing"][word]]
        return "" if nothing else match[1]

    kept = re.sub(r"\[([^\]]*)\]", part, found.row.sentence)
    return re.sub(r"\{(\w+)\}", value, kept)


def minute(line: str) -> Optional[Minute]:
    """A line without its end; nothing where it isn't one of minutes."""
    parts = line.split("\t")
    if len(parts) != 5 or not parts[0].isdecimal():
        return None
    return Minute(int(parts[0]), parts[1], parts[2], parts[3], parts[4], said(parts[3], parts[4]))
