"""Counts the instructions of requests at a server: what the benches of this kind share."""
import glob
import os
import re
import subprocess

from checks.support.says import expect, fail
from checks.support.server import Server


def asks(server, step):
    """Asks for a step, or for what a request gives whatever it is."""
    if isinstance(step, bytes):
        if not server.ask(step, ends=False):
            fail("a request without a response")
    else:
        expect(server.ask(step.given, ends=False), step.due, "a request that is counted")


class Counting:
    """A server under callgrind."""

    def __init__(self, program, desk):
        self.out = program.at("callgrind.out")
        tool = [
            "valgrind", "--tool=callgrind", "--instr-atstart=no", f"--callgrind-out-file={self.out}"
        ]
        self.server = Server(program, desk, under=tool)

    def control(self, *words):
        pid = str(self.server.process.pid)
        ran = subprocess.run(
            ["callgrind_control", *words, pid], capture_output=True, text=True, timeout=300,
            check=False
        )
        if ran.returncode:
            fail(f"callgrind_control {words}: {ran.stdout} {ran.stderr}")

    def counted(self, steps):
        """The instructions of one of these."""
        for it in glob.glob(f"{self.out}*"):
            os.remove(it)
        self.control("-i", "on")
        self.control("-z")
        for step in steps:
            asks(self.server, step)
        self.control("-d")
        self.control("-i", "off")
        totals = []
        for it in glob.glob(f"{self.out}*"):
            with open(it, encoding="utf-8", errors="replace") as lines:
                totals += [
                    int(found[1])
                    for found in re.finditer(r"^(?:summary|totals): (\d+)", lines.read(), re.M)
                ]
        if not totals:
            fail("callgrind wrote no totals")
        return max(totals) / len(steps)
