"""The lines of a page that a person types, each with those that come of it, and a shell."""
from __future__ import annotations

import contextlib
import os
import re
import signal
import subprocess
from pathlib import Path
from typing import Any, Mapping, NamedTuple

from checks.support.says import fail, note

MARK = "-- that was all of it --"


class Command(NamedTuple):
    """`who` is the name before `$` or `#`, where there is one."""

    who: str
    text: str
    wanted: list[str]


def commands(page: str) -> list[Command]:
    """Each line `olga$ COMMAND`, `$ COMMAND` or `root# COMMAND` of a block; `> ` goes on with it,
    and what comes of it stands below."""
    found: list[Command] = []
    for line in page.splitlines():
        prompt = re.fullmatch(r"    ([a-z]*\$|[a-z]+#) (.*)", line)
        if prompt:
            found.append(Command(prompt[1][:-1], prompt[2], []))
        elif line.startswith("    > ") and found:
            found[-1] = found[-1]._replace(text=f"{found[-1].text}\n{line[6:]}")
        elif line.startswith("    ") and found:
            found[-1].wanted.append(line[4:])
    return found


def section(page: Path, title: str) -> str:
    parts = page.read_text(encoding="utf-8").split(f"\n## {title}\n", 1)
    return parts[1].split("\n## ", 1)[0] if len(parts) == 2 else ""


class Shell:
    """A bash of somebody's own, in a process group that ends with it. What is typed stands in the
    file `script`."""

    def __init__(self, folder: Path, env: Mapping[str, str], script: Path, **how: Any) -> None:
        self.script = script
        self.process: subprocess.Popen[str] = subprocess.Popen(
            ["bash", "--norc", "--noprofile"], stdin=subprocess.PIPE, stdout=subprocess.PIPE,
            text=True, bufsize=1, start_new_session=True, cwd=folder, env=env, **how,
        )

    def typed(self, text: str) -> list[str]:
        """The lines that come of a command, but for empty ones, and `(status N)` of another status
        than 0."""
        self.script.write_text(f"{text}\n", encoding="utf-8")
        assert self.process.stdin and self.process.stdout
        told = f"printf '\\n%s %s\\n' '{MARK}' \"$?\""
        self.process.stdin.write(f". {self.script} < /dev/null; {told}\n")
        self.process.stdin.flush()
        lines: list[str] = []
        for line in iter(self.process.stdout.readline, ""):
            if line.startswith(MARK):
                status = int(line[len(MARK) :])
                lines += [f"(status {status})"] * bool(status)
                note(text, "", "\n".join(lines))
                return lines
            lines += [line.rstrip("\n")] * bool(line.strip("\n"))
        fail(f"the shell ended at: {text}\n" + "\n".join(lines))

    def end(self) -> None:
        """The shell ends, with what it began."""
        with contextlib.suppress(ProcessLookupError):
            os.killpg(self.process.pid, signal.SIGKILL)
        self.process.communicate()
