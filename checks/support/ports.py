"""Ports of 127.0.0.1 for servers that begin later, or again. A held port is bound to a socket that
doesn't listen: the system gives its number to nobody else, whoever connects is refused, and a
server that sets SO_REUSEADDR, as the desk's and nginx do, listens there. `ports.py COUNT` prints so
many and holds them until it or its parent ends. And who listens at a port."""
from __future__ import annotations

import ctypes
import os
import signal
import socket
import sys


class Held:
    """A port that is held until it is let go, or until this process ends."""

    def __init__(self) -> None:
        self.socket = socket.socket()
        self.socket.setsockopt(socket.SOL_SOCKET, socket.SO_REUSEADDR, 1)
        self.socket.bind(("127.0.0.1", 0))
        self.port: int = self.socket.getsockname()[1]

    def let_go(self) -> None:
        self.socket.close()


def listening(port: int) -> set[str]:
    """The inodes of the sockets that listen at this port, by the system's table: a connection would
    be one of those that a server counts."""
    with open("/proc/net/tcp", encoding="ascii") as table:
        rows = [line.split() for line in table]
    return {row[9] for row in rows if row[1] == f"0100007F:{port:04X}" and row[3] == "0A"}


def sockets(process: int) -> set[str]:
    """The inodes of the sockets that a process holds."""
    found = set()
    try:
        for file in os.scandir(f"/proc/{process}/fd"):
            kind, _, inode = os.readlink(file.path).partition(":")
            if kind == "socket":
                found.add(inode.strip("[]"))
    except FileNotFoundError:
        pass  # (a file that was closed meanwhile, or the whole process)
    return found


def listens(process: int, port: int) -> bool:
    """Whether the process listens at this port."""
    return bool(listening(port) & sockets(process))


if __name__ == "__main__":
    ctypes.CDLL(None).prctl(1, signal.SIGKILL)  # (PR_SET_PDEATHSIG)
    held = [Held() for _ in range(int(sys.argv[1]))]
    print(*(one.port for one in held), flush=True)
    signal.pause()
