"""The manual pages' texts, which are Markdown as this repository writes it, set in man(7), and
tables in tbl(1): for packaging/man.py and client/pages.py."""
from __future__ import annotations

import re
import textwrap
from typing import Iterable, Sequence

WIDTH = 78
MARKS = {"\\": "\\e", "~": "\\(ti", "^": "\\(ha", "`": "\\(ga", "\u00a0": "\\~"}


def plain(text: str) -> str:
    """The text in roff, the same in print as here."""
    for mark, name in MARKS.items():
        text = text.replace(mark, name)
    return text


def literal(text: str) -> str:
    """The same for what is typed: hyphens and quotes stay those of ASCII."""
    return plain(text).replace("-", "\\-").replace("'", "\\(aq")


def breaking(code: str) -> str:
    """What is typed in a paragraph: a line may end behind a comma."""
    return literal(code).replace(",", ",\\:")


def inline(text: str) -> str:
    """The text in roff, with its `code` and **strong** words in bold, and *titles* in italics."""
    parts = re.split(r"`([^`]+)`|\*\*([^*]+)\*\*|\*([^*]+)\*", text)
    found = ""
    parts += [None] * 3
    for before, code, strong, title in zip(*(parts[at::4] for at in range(4))):
        found += plain(before)
        if code or strong:
            found += "\\fB" + (breaking(code) if code else plain(strong)) + "\\fR"
        if title:
            found += "\\fI" + plain(title) + "\\fR"
    return found


def shielded(line: str) -> str:
    """A line of text that is no request."""
    return "\\&" + line if line[:1] in (".", "'") else line


def filled(text: str) -> list[str]:
    """The lines of a paragraph."""
    lines = textwrap.wrap(inline(text), WIDTH, break_long_words=False, break_on_hyphens=False)
    return [shielded(line) for line in lines]


def folded(line: str) -> list[str]:
    """A line that is typed; one that is too long ends behind a comma, where there is one."""
    if len(line) <= WIDTH - 12 or "," not in line[:WIDTH - 12]:
        return [line]
    end = line.rindex(",", 0, WIDTH - 12) + 1
    return [line[:end]] + folded(line[end:])


def example(lines: Iterable[str]) -> list[str]:
    typed = [shielded(literal(part)) for line in lines for part in folded(line)]
    return [".PP", ".nf", ".RS 4"] + typed + [".RE", ".fi"]


def width(cell: str) -> int:
    return len(cell.replace("`", ""))


def table(rows: Sequence[Sequence[str]]) -> list[str]:
    """A table, whose first row is the head: by tbl(1), which fills the last column, or as a list if
    that column has no room."""
    columns = list(zip(*rows))
    if sum(max(map(width, column)) for column in columns[:-1]) > WIDTH / 2:
        return listed(rows)
    head = " ".join(["lb"] * (len(columns) - 1) + ["lbx"])
    body = " ".join(["l"] * (len(columns) - 1) + ["lx"])
    found = [".PP", ".TS", head, body + "."]
    for row in rows:
        found.append("\t".join(inline(cell) for cell in row[:-1]) + "\tT{")
        found += (filled(row[-1]) or ["\\&"]) + ["T}"]
    return found + [".TE"]


def listed(rows: Sequence[Sequence[str]]) -> list[str]:
    """A table as a list: the first cell of each row, and below it the others, with their heads if
    there are several."""
    found, heads = [], [head.split(",")[0] for head in rows[0][1:]]
    for row in rows[1:]:
        several = len(heads) > 1
        named = [
            f"{head}: {cell}" if several else cell for head, cell in zip(heads, row[1:]) if cell]
        text = filled("; ".join(cell.rstrip(".") for cell in named) + ".")
        # (a term is one line; a longer one is a paragraph)
        if len(inline(row[0])) <= WIDTH:
            found += [".TP", inline(row[0]), *text]
        else:
            found += [".PP", *filled(row[0]), ".RS", *text, ".RE"]
    return found


def cells(line: str) -> list[str]:
    return [cell.strip() for cell in line.strip().strip("|").split("|")]


# Where a table, a text that is typed or an item begins.
BEGINS = re.compile(r"\||```|- |\d+\. ")


def roff(text: str) -> list[str]:
    """The roff of Markdown as this repository writes it: paragraphs, tables, lists, and text that
    is typed."""
    lines, found, at = text.strip("\n").split("\n"), [], 0
    while at < len(lines):
        line, begins = lines[at], at
        if not line.strip() or line.startswith("<!--"):
            at += 1
        elif line.startswith("|"):
            while at < len(lines) and lines[at].startswith("|"):
                at += 1
            found += table([cells(row) for row in lines[begins:at] if not row.startswith("|---")])
        elif line.startswith("```"):
            at = lines.index("```", at + 1) + 1
            found += example(lines[begins + 1:at - 1])
        elif line.startswith("    "):
            while at < len(lines) and lines[at].startswith("    "):
                at += 1
            found += example([row[4:] for row in lines[begins:at]])
        else:
            mark = re.match(r"(- |\d+\. )", line)
            at += 1
            while at < len(lines) and lines[at].strip() and not BEGINS.match(lines[at]):
                at += 1
            part = " ".join(row.strip() for row in lines[begins:at])
            for item in re.split(r" (?=\d+\. [A-Z])", part) if mark else [part]:
                sign, text = re.findall(r"^(- |\d+\. |)(.*)", item)[0]
                head = {"": ".PP", "- ": ".IP \\(bu 2"}.get(sign, f".IP {sign.strip()} 4")
                found += [head] + filled(text)
    return found


def terms(rows: Iterable[tuple[str, str]], font: str = "B") -> list[str]:
    """Names, and what they mean."""
    found: list[str] = []
    for name, text in rows:
        found += [".TP", f"\\f{font}{literal(name)}\\fR"] + filled(text)
    return found


def page(name: str, number: int, date: str, version: str, about: str,
         parts: Iterable[tuple[str, list[str]]]) -> str:
    head = f'.TH {name.upper()} {number} {date} "Kovelamiru {version}" Kovelamiru'
    found = ["'\\\" t", ".nr HY 0", ".ad l", head, ".SH NAME"]
    found.append(f"{literal(name)} \\- {about}")
    for title, lines in parts:
        found += [f'.SH "{title}"'] + lines
    # A paragraph that follows a title needs no mark.
    return re.sub(r"(?m)^(\.S[HS] .*)\n\.PP$", r"\1", "\n".join(found)) + "\n"
