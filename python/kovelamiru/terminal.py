"""The terminal: results, notes, tables, questions, and the bar of an upload."""
from __future__ import annotations

import os
import re
import shutil
import signal
import subprocess
import sys
import textwrap
import threading
from typing import Optional, Sequence, TextIO

from .faults import wrong
from .words import brief, cut, lines_of, printable


# What `deskctl token` makes.
TOKEN = re.compile(r"desk_[A-Za-z0-9_-]{43}")


def widths_of(cells: Sequence[Sequence[str]]) -> list[int]:
    """Those of the columns; a row of one cell is a heading."""
    return [max(map(len, column)) for column in zip(*(row for row in cells if len(row) > 1))]


def fitted(cells: Sequence[Sequence[str]], stretch: int, room: int) -> list[str]:
    """Rows as lines of this width at most, by cutting the column `stretch` first."""
    widths = widths_of(cells)
    over = sum(widths) + 2 * (len(widths) - 1) - room
    if over > 0:
        less = min(over, max(widths[stretch] - 8, 0))
        widths[stretch] -= less
        for _ in range(over - less):
            widths[widths.index(max(widths))] -= 1
    return ["  ".join(cut(cell, width).ljust(width) for cell, width in zip(row, widths)).rstrip()
            if len(row) > 1 else cut(row[0], room) for row in cells]


def wrapped(text: str, stream: TextIO) -> str:
    """A doubt; on a terminal, lines of whole words."""
    text = f"! {printable(text)}"
    if not stream.isatty():
        return text
    return textwrap.fill(text, shutil.get_terminal_size().columns, subsequent_indent="  ",
                         break_long_words=False, break_on_hyphens=False)


class Terminal:
    """What people see: results on standard output, all else on standard error. All that is shown
    goes through here, and nothing moves a terminal's cursor."""
    def __init__(self, out: TextIO, err: TextIO):
        self.out, self.err = out, err
        self.quiet = False
        self.yes = False
        # A person can be asked: questions go to standard error, and standard input answers them.
        self.asks = err.isatty() and sys.stdin is not None and sys.stdin.isatty()
        self.wide = out.isatty()

    def say(self, text: str = "", end: str = "\n") -> None:
        self.out.write(lines_of(text) + end)

    def data(self, data: bytes) -> None:
        """A result as the desk has it; on a terminal as lines."""
        if self.wide:
            self.out.write(lines_of(data.decode("utf-8", "replace")))
        else:
            self.out.buffer.write(data)

    def doubt(self, text: str) -> None:
        """A doubt among the results."""
        self.say(wrapped(text, self.out))

    def note(self, text: str) -> None:
        if not self.quiet:
            self.warn(text)

    def warn(self, text: str) -> None:
        self.err.write(lines_of(text) + "\n")
        self.err.flush()

    def stop(self, text: str, more: Sequence[str]) -> None:
        """What ended a run, or a part of it, and lines below it that say what to do."""
        for line in (f"deskctl: {text}", *(f"  {line}" for line in more)):
            self.warn(TOKEN.sub("(a token)", printable(line)))

    def flush(self) -> None:
        self.out.flush()

    def table(self, heads: Sequence[str], rows: Sequence[Sequence[object]], stretch: int,
              none: str, spare: Optional[int] = None, paged: bool = False) -> None:
        """A table: on a terminal with heads and as wide as that is, without the column `spare`
        where that is too wide, and the column `stretch` cut short, or a note that there is none;
        else tabs and nothing cut."""
        if not rows:
            if self.wide:
                self.note(none)
            return
        cells = [[printable(cell) for cell in row] for row in rows]
        if not self.wide:
            for row in cells:
                self.say("\t".join(row))
            return
        cells = [list(heads)] + [[brief(cell) if at != stretch else cell
                                  for at, cell in enumerate(row)] for row in cells]
        room = shutil.get_terminal_size().columns
        if spare is not None and sum(widths_of(cells)) + 2 * (len(heads) - 1) > room:
            cells = [[cell for at, cell in enumerate(row) if at != spare or len(row) == 1]
                     for row in cells]
            stretch -= spare < stretch
        lines = fitted(cells, stretch, room)
        if paged:
            self.page(lines)
        else:
            self.say("\n".join(lines))

    def page(self, lines: Sequence[str]) -> None:
        """Lines, through $PAGER or less where the terminal hasn't so many, as git shows them."""
        pager = os.environ.get("PAGER", "less")
        if len(lines) >= shutil.get_terminal_size().lines and pager not in ("", "cat"):
            self.flush()
            environment = {"LESS": "FRX", **os.environ}
            environment.pop("DESK_TOKEN", None)
            began = subprocess.Popen(["sh", "-c", pager], stdin=subprocess.PIPE, env=environment)
            # Ctrl-C is the pager's.
            before = signal.signal(signal.SIGINT, signal.SIG_IGN)
            began.communicate("".join(f"{printable(line)}\n" for line in lines).encode())
            signal.signal(signal.SIGINT, before)
            if began.returncode not in (126, 127):
                return
        self.say("\n".join(lines))

    def rows(self, pairs: Sequence[tuple[str, object]]) -> None:
        """A name and its value a line."""
        for name, value in pairs:
            self.say(f"{name:<11} {printable(value)}".rstrip())

    def confirm(self, doubts: Sequence[str], question: str, wanted: str = "yes",
                word: str = "--yes") -> None:
        """Shows the doubts, and goes on only if a person types what is wanted, or --yes was given.
        `word` says the same without asking."""
        for doubt in doubts:
            self.warn(wrapped(doubt, self.err))
        if self.yes:
            return
        if not self.asks:
            wrong("nothing was sent, since there is no terminal to ask at",
                  f"If it is what you mean, say so: {word}.")
        if self.typed(question) != wanted:
            wrong("nothing was sent")

    def typed(self, question: str) -> str:
        """What a person types at a question."""
        self.err.write(f"{printable(question)} ")
        self.err.flush()
        return sys.stdin.readline().strip()

    @property
    def can_ask(self) -> bool:
        return self.asks and not self.yes

    def ask(self, consequences: Sequence[str], question: str = "Is that meant? Type yes:",
            wanted: str = "yes") -> None:
        """Before what can't be taken back, where a person can be asked: a script means it."""
        if self.can_ask:
            self.confirm(consequences, question, wanted)


# After so many seconds it is said that an answer is waited for.
PATIENCE = 3.0


class Progress:
    """A bar for an upload, on a terminal alone, and a line where the answer takes long."""
    def __init__(self, terminal: Terminal, size: int, where: str):
        self.terminal, self.err, self.where = terminal, terminal.err, where
        self.shown = terminal.err.isatty() and not terminal.quiet and size > 1 << 18
        self.size, self.last = size, -1
        self.timer = self.begun()

    def begun(self) -> threading.Timer:
        timer = threading.Timer(PATIENCE, self.waits)
        timer.daemon = True
        timer.start()
        return timer

    def waits(self) -> None:
        self.cleared()
        self.terminal.note(f"deskctl: waiting for {self.where}")

    def at(self, sent: int) -> None:
        if self.shown and sent != self.size:
            self.timer.cancel()
        elif self.shown:
            self.timer = self.begun()
        percent = sent * 100 // max(self.size, 1)
        if self.shown and percent != self.last:
            self.last = percent
            done = percent * 30 // 100
            self.err.write(f"\r[{'#' * done}{'.' * (30 - done)}] {percent:3d} % of"
                           f" {self.size / 1048576:.1f} MiB")
            self.err.flush()

    def __enter__(self) -> Progress:
        return self

    def __exit__(self, *_: object) -> None:
        self.timer.cancel()
        self.cleared()

    def cleared(self) -> None:
        if self.shown and self.last >= 0:
            self.err.write("\r" + " " * 60 + "\r")
            self.err.flush()
