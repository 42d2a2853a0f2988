#!/usr/bin/env python3
"""In a machine of the lab: with the word `named` gives it its name and addresses, else types what
comes by its port. Each line is a number and a command, in JSON; the answer has the number, the
status and what was printed."""
from __future__ import annotations

import json
import re
import subprocess
import sys
import time
from pathlib import Path

PORT = Path("/dev/virtio-ports/lab")
NUMBERS = {"a": 1, "b": 2, "q": 3}


def named() -> None:
    """eth0 is the people's network, eth1 the line between a and b."""
    found = re.search("labhost=([abq])", Path("/proc/cmdline").read_text(encoding="ascii"))
    assert found
    number = NUMBERS[found[1]]
    commands = [f"hostname {found[1]}", f"echo {found[1]} > /etc/hostname",
                f"ip address add 192.0.2.{number}/24 dev eth0", "ip link set eth0 up",
                f"ip address add 10.77.0.{number}/24 dev eth1", "ip link set eth1 up"]
    for command in commands:
        subprocess.run(["sh", "-c", command], check=False)


def types() -> None:
    """(The port stays open: what comes while it is closed would be lost.)"""
    with open(PORT, "r+b", buffering=0) as port:
        while True:
            if not (line := port.readline()):
                time.sleep(0.1)
                continue
            number, text = json.loads(line)
            done = subprocess.run(["bash", "-c", text], stdout=subprocess.PIPE,
                                  stderr=subprocess.STDOUT, cwd="/root/cluster", check=False)
            answer = [number, done.returncode, done.stdout.decode(errors="replace")]
            port.write(json.dumps(answer).encode() + b"\n")


if sys.argv[1:] == ["named"]:
    named()
else:
    types()
