"""The help and the version of the program.

Help has the subcommands of crates/cli_grammar/specs/Commands.antt in order, each with the line that
begins its own help. That one shows an example and the exit statuses 0 to 3; a refusal in it is one
that ends the program with the status next to it. Each example is run on a desk that is made on the
spot. The version is the newest in CHANGELOG.md."""
from __future__ import annotations

import os
import re
import shutil
import socket
import subprocess

import pytest

from checks.support.images import sha256
from checks.support.messages import request
from checks.support.program import Program
from checks.support.says import expect, fail
from checks.support.server import Server
from checks.support.steps import named
from checks.support.tools import EXAMPLES, ROOT, end_with_parent
from checks.support.wire import wire

COMMANDS = ROOT / "crates" / "cli_grammar" / "specs" / "Commands.antt"
SUBCOMMANDS = re.findall(r'\(subcommand_shape \(codes "([a-z]*)"\) [0-9]*\)', COMMANDS.read_text())
TOKEN = "olga-token-000001"
# By number: a refusal's name, and the status that it ends the program with.
STATUSES = {
    one["number"]: (one["name"], 3 if one["kind"] == "device" else 1) for one in wire("refusals")
}


def test_the_version_is_the_newest_of_the_change_log(desk: Program) -> None:
    newest = re.search(r"(?m)^## ([^ ,]*)", (ROOT / "CHANGELOG.md").read_text(encoding="utf-8"))
    assert newest
    expect(desk.gives("--version"), f"desk {newest[1]}\n".encode(), "the version")


def test_help_has_the_subcommands_in_order(desk: Program) -> None:
    help = desk.gives("help")
    for word in ("--help", "-h"):
        expect(desk.gives(word), help, f"desk {word}")
    shown = [one for one in re.findall(r"(?m)^  ([a-z][a-z]*)  ", help.decode()) if one != "help"]
    expect(shown, SUBCOMMANDS, "the subcommands of help")


class Help:
    """The help of one subcommand."""

    def __init__(self, desk: Program, subcommand: str) -> None:
        self.text = desk.gives(subcommand, "--help").decode()
        example = re.search(r"(?m)^Example:\n((?:  .*\n)+)", self.text)
        assert example, f"{subcommand} has no example"
        self.example = example[1].strip()
        if "\n" in self.example or not self.example.startswith(f"desk {subcommand} "):
            fail(f"the example of {subcommand}: {self.example}")
        below = self.text.split("\nExit status:\n", 1)[1]
        statuses = re.split(r"(?m)^  (\d)  ", below)[1:]
        self.says = dict(zip(map(int, statuses[::2]), statuses[1::2]))
        expect([*self.says], [0, 1, 2, 3], f"the statuses of {subcommand}")

    def named(self, status: int) -> set[str]:
        """The refusals of a status, each as NUMBER NAME."""
        text = " ".join(self.says[status].split())
        return {one for one in re.findall(r"\d+ [A-Z][A-Za-z0-9]*", text) if not one.endswith("iB")}


def asked(key: str, path: str, body: bytes) -> bytes:
    return request("POST", path, [("Desk-Token", TOKEN), ("Desk-Key", key)], body)


class Examples:
    """A folder in which examples are run, with what each needs."""

    def __init__(self, desk: Program) -> None:
        self.desk, self.bin, self.good = desk, desk.room / "bin", desk.room / "good"
        for folder in (self.bin, self.good):
            folder.mkdir()
        (self.bin / "desk").symlink_to(desk.path)
        (self.good / "token.txt").write_text(f"{TOKEN}\n")
        (self.good / "olga.sha256").write_text(f"{sha256(TOKEN.encode())}  -\n")
        body = bytes.fromhex("30053003020101")
        (self.good / "request.txt").write_bytes(asked("k2", "/db/certificates", body))
        shutil.copy(EXAMPLES / "signed.efi", self.good / "shimx64.efi")
        shutil.copy(EXAMPLES / "digests.txt", self.good)

    def runs(self, help: Help) -> None:
        done = subprocess.run(
            ["sh", "-c", help.example], cwd=self.good, capture_output=True, timeout=120, check=False,
            env={**self.desk.env, "PATH": f"{self.bin}:{os.environ['PATH']}"},
            stdin=subprocess.DEVNULL, preexec_fn=end_with_parent,
        )
        expect((done.returncode, done.stderr), (0, b""), help.example)

    def serves(self, help: Help) -> None:
        """The example of `serve`, at a port that is free, with a connection for each that it
        counts."""
        words = help.example.split()
        expect((len(words), words[3]), (5, "8080"), "the example of serve")
        with Server(self.desk, str(self.good / words[2]), int(words[4])) as server:
            for _ in range(int(words[4])):
                with socket.create_connection(("127.0.0.1", server.port), timeout=30) as peer:
                    peer.shutdown(socket.SHUT_WR)
                    try:
                        while peer.recv(4096):
                            pass
                    except ConnectionResetError:
                        pass
            server.ended()


def test_each_refusal_that_help_names_has_its_status(desk: Program) -> None:
    for subcommand in SUBCOMMANDS:
        help = Help(desk, subcommand)
        for status in (0, 1, 2, 3):
            for one in help.named(status):
                number, name = one.split()
                expect((name, status), STATUSES[int(number)], f"{subcommand}: {one}")
        line = f"  {subcommand} *{re.escape(help.text.splitlines()[0])}\n"
        assert re.search(
            line, desk.gives("help").decode()
        ), f"help has another line of {subcommand}"


@pytest.mark.long(10)
def test_each_example_does_as_help_says(desk: Program) -> None:
    """One after another on one desk, as help has them."""
    examples = Examples(desk)
    for subcommand in SUBCOMMANDS:
        help = Help(desk, subcommand)
        if subcommand == "impact":
            given = asked("k3", "/dbx/digests", named("0" * 64))
            desk.gives("answer", examples.good / "desk.db", given=given)
        if subcommand == "serve":
            examples.serves(help)
        else:
            examples.runs(help)
        expect(desk.run(subcommand).status, 2, f"desk {subcommand}")
