"""The machines of checks/cluster/lab, and which of them serve."""
from __future__ import annotations

import json
import socket
import subprocess
import sys
import time
from concurrent.futures import ThreadPoolExecutor
from pathlib import Path
from typing import Callable

from checks.support.tools import ROOT


class Lab:
    def __init__(self, room: Path) -> None:
        self.room, self.typed = room, int(time.time())

    def power(self, *words: str) -> None:
        subprocess.run([ROOT / "checks/cluster/lab", words[0], self.room, *words[1:]], check=True,
                       stdout=subprocess.DEVNULL)

    def types(self, name: str, text: str, seconds: float = 900) -> tuple[int, str]:
        """The status and what was printed. (An answer to what was typed before isn't it.)"""
        own = self.typed = self.typed + 1
        with socket.socket(socket.AF_UNIX) as peer:
            peer.settimeout(seconds)
            peer.connect(str(self.room / f"{name}.shell"))
            peer.sendall(json.dumps([own, text]).encode() + b"\n")
            for line in peer.makefile():
                number, status, said = json.loads(line)
                if number == own:
                    return int(status), str(said)
        raise OSError(f"{name} is off")

    def does(self, name: str, text: str, quiet: bool = False) -> str:
        status, said = self.types(name, text)
        if status or not quiet:
            print(f"{name}# {text}\n{said}", end="", flush=True)
        if status:
            sys.exit(f"{name}# {text}: status {status}")
        return said

    def both(self, text: str, *names: str) -> None:
        """Types this on several machines at once."""
        with ThreadPoolExecutor() as pool:
            list(pool.map(lambda name: self.does(name, text), names))

    # ---- the cluster

    def answers(self, name: str) -> bool:
        asks = "curl -s -o /dev/null --max-time 20 http://127.0.0.1:880/level"
        try:
            return self.types(name, asks, 60)[0] == 0
        except OSError:
            return False

    def serving(self) -> list[str]:
        found = [name for name in ("a", "b") if self.answers(name)]
        if len(found) == 2 and self.answers("a") and self.answers("b"):
            sys.exit("two desks serve")
        return found

    def until(self, what: str, there: Callable[[], bool], seconds: float = 900) -> None:
        end = time.monotonic() + seconds
        while not there():
            if time.monotonic() > end:
                for name in ("a", "b"):
                    self.does(name, "crm_mon -1rf; cat /proc/drbd; journalctl -n 60 -o cat")
                sys.exit(f"{what}: not in {seconds} seconds")
            time.sleep(3)

    def serves(self) -> str:
        """The machine whose desk answers, once one does."""
        found: list[str] = []

        def there() -> bool:
            found[:] = self.serving()
            return bool(found)

        self.until("a desk answers", there)
        return found[0]

    def votes(self) -> None:
        """There is a quorum, and both machines are in the cluster."""
        self.until("a quorum", lambda: "Online: [ a b ]" in self.types("a", "crm_mon -1")[1])

    def settles(self) -> None:
        """Both disks have all, and both machines are in the cluster."""
        def there() -> bool:
            asks = "crm_mon -1; cat /proc/drbd"
            try:
                said = [self.types(name, asks, 60)[1] for name in ("a", "b")]
            except OSError:
                return False
            return all("Online: [ a b ]" in one and "UpToDate/UpToDate" in one for one in said)

        self.until("the cluster is whole", there)
