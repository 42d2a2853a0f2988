"""Runs that are killed: before each line of the journal's module and of the run's, between journal
and answer, at any moment. Run again by whoever saw no answer, each command takes effect once."""
from __future__ import annotations

import os
import signal
import subprocess
import sys
import threading
import time
from collections import Counter
from pathlib import Path

import pytest

from checks.support.between import Ask, Between
from checks.support.deskctl import Office, Person
from checks.support.messages import token
from checks.support.says import expect, fail, note
from checks.support.tools import ROOT, end_with_parent

TRACED = ROOT / "checks" / "client" / "killed.py"


def killed(person: Person, last: int, title: str) -> tuple[int, str, str]:
    """A run that is killed before a line: its status, and what it printed."""
    words = ["submit", "plain.efi", "--title", title]
    done = subprocess.run(
        [sys.executable, "-BIS", TRACED, ROOT / "python", str(last), *words], env=person.env,
        cwd=person.room, text=True, stdin=subprocess.DEVNULL, capture_output=True, check=False,
        timeout=250, preexec_fn=end_with_parent,
    )
    note(f"{person.name} types: deskctl {' '.join(words)}, killed before line {last}", "", done)
    return done.returncode, done.stdout, done.stderr


@pytest.mark.long(60)
def test_killed_before_any_line_of_the_journal_it_takes_effect_once(office: Office) -> None:
    """One line is left: behind the journal's last step and before the end of the run, which follows
    at once."""
    ann = office["ann"]
    status, _, said = killed(ann, 0, "none")
    expect(status, 0, f"deskctl line by line: {said}")
    count, answered = int(said.split()[-2]), 0
    assert count > 60
    for last in range(1, count + 1):
        status, out, _ = killed(ann, last, f"line {last}")
        expect(status, -signal.SIGKILL, f"killed before line {last} of {count}")
        answered += "submitted" in out
        ann.does(f"submit plain.efi --title 'line {last}'", "submitted")
    times = Counter(row[3].split(" ", 8)[-1] for row in office.calls())
    twice = [title for title, number in times.items() if number != 1]
    assert (len(times), answered > 0) == (count + 1, True) and twice in ([], [f"line {count}"])
    expect(os.listdir(ann.journal), [], "the journal")


@pytest.mark.parametrize("acts", [True, False], ids=["had the request", "hadn't it"])
def test_killed_while_the_answer_is_on_its_way_it_takes_effect_once(
    office: Office, between: Between, acts: bool
) -> None:
    """Meanwhile the token is in no process list."""
    reached, go = threading.Event(), threading.Event()

    def rule(request: bytes, ask: Ask) -> bytes:
        found = ask(request) if acts else b""
        reached.set()
        go.wait(60)
        return found

    ann, line = office["ann"].at(between.url), "submit plain.efi --title T"
    between.loses = [rule]
    run = ann.start(line)
    assert reached.wait(60)
    for what in ("cmdline", "environ"):
        assert token("").encode() not in Path(f"/proc/{run.pid}/{what}").read_bytes()
    run.send_signal(signal.SIGKILL)
    run.communicate()
    go.set()
    expect(len(ann.pending()), 1, "the journal's entries with a key")
    ann.does(line, "request 1 submitted", err=["taking up"])
    office.once(1)


LANES, RUNS = 4, 9


def killed_anywhere(office: Office, lane: int) -> None:
    """Runs killed after growing times. Whoever saw the answer doesn't run it again."""
    person, slowest = office.person("ann", home=f"lane-{lane}"), 0.25
    for number in range(RUNS):
        line = f"submit plain.efi --title 'lane {lane} run {number}'"
        begun, run = time.monotonic(), person.start(line)
        time.sleep(slowest * (number + lane / 4) / RUNS)
        run.kill()
        seen = run.communicate()[0]
        if run.returncode == 0:
            slowest = max(0.05, time.monotonic() - begun)
        if b"submitted" not in seen:
            person.does(line, "submitted")


@pytest.mark.long(20)
def test_killed_at_any_moment_it_takes_effect_once(office: Office) -> None:
    lanes = [threading.Thread(target=killed_anywhere, args=(office, lane)) for lane in range(LANES)]
    for one in lanes:
        one.start()
    for one in lanes:
        one.join()
    titles = [row[3].split(" ", 8)[-1] for row in office.calls()]
    expect((len(titles), len(set(titles))), (LANES * RUNS,) * 2, "submissions, titles")


def test_runs_of_the_same_command_follow_one_another(office: Office) -> None:
    """Each has a key of its own."""
    line = "submit plain.efi --title T"
    runs = [office["ann"].start(line) for _ in range(4)]
    found = [office["ann"].ended(run, line) for run in runs]
    numbers = sorted(one.out.split("\n")[0] for one in found)
    if numbers != [f"request {number} submitted" for number in range(1, 5)]:
        fail(f"four runs at once: {found}")
    office.once(4)
