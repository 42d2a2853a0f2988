"""How long deskctl asks a desk that doesn't answer, and what it says meanwhile."""
from __future__ import annotations

import io
import time

import pytest

from checks.support.deskctl import Office
from checks.support.ports import Held
from checks.support.says import expect
from kovelamiru import desk as tries
from kovelamiru import terminal
from kovelamiru.desk import Desk
from kovelamiru.faults import Lost, NoAnswer
from kovelamiru.http import Answer, Call, Where

WHERE = Where(False, "127.0.0.1", 1, "")
READ, COMMAND = Call("GET", "/me"), Call("POST", "/db/digests").given("k1", "")


class Silent(Desk):
    """A desk that gives no answer; `nobody` listens there, or each try takes so many seconds."""

    def __init__(self, nobody: bool, seconds: float = 0.0) -> None:
        super().__init__(WHERE, None, "", terminal.Terminal(io.StringIO(), io.StringIO()), "", "")
        self.nobody, self.taking, self.times = nobody, seconds, [time.monotonic()]

    def once(self, call: Call, shown: object = None) -> Answer:
        self.times.append(time.monotonic())
        time.sleep(self.taking)
        raise NoAnswer("no answer", False, self.nobody)


def asked(desk: Silent, call: Call) -> int:
    """How many tries there were."""
    with pytest.raises(Lost):
        desk.ask(call)
    return len(desk.times) - 1


def test_only_a_command_goes_on_where_nobody_listens(monkeypatch: pytest.MonkeyPatch) -> None:
    monkeypatch.setattr(tries, "FIRST_PAUSE", 0.01)
    monkeypatch.setattr(tries, "NOBODY", 0.1)
    expect(asked(Silent(True), COMMAND), tries.RETRIES + 1, "the tries of a command")
    expect(asked(Silent(False), READ), tries.RETRIES + 1, "the tries of a question to somebody")
    few = Silent(True)
    assert asked(few, READ) < tries.RETRIES
    assert 0.1 <= few.times[-1] - few.times[0] < 0.3


def test_a_port_without_a_desk_is_told_within_seconds(office: Office) -> None:
    nobody = Held()
    begun = time.monotonic()
    office["olga"].at(f"http://127.0.0.1:{nobody.port}").ends(3, "report", "no connection")
    assert 3 <= time.monotonic() - begun < 20
    nobody.let_go()
