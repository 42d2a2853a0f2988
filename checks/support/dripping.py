"""A peer whose answer never ends: each byte of it comes in time."""
from __future__ import annotations

import contextlib
import socket
import threading
import time
from typing import Iterator

HEAD = b"HTTP/1.1 200 OK\r\nContent-Type: text/plain\r\n"
# What is answered at first, and then again and again.
WAYS = {
    "nothing": (b"", b""),
    "100 Continue": (b"", b"HTTP/1.1 100 Continue\r\n\r\n"),
    "a head": (HEAD + b"X: ", b"x"),
    "a body": (HEAD + b"Content-Length: 99999\r\n\r\n", b"x"),
    "a chunk's length": (HEAD + b"Transfer-Encoding: chunked\r\n\r\n", b"0"),
}


def drips(peer: socket.socket, way: str) -> None:
    begin, again = WAYS[way]
    with peer, contextlib.suppress(OSError):
        peer.recv(1 << 16)
        peer.sendall(begin)
        while True:
            time.sleep(0.05)
            peer.sendall(again)


@contextlib.contextmanager
def dripping(way: str) -> Iterator[str]:
    """The URL of such a peer."""
    with socket.create_server(("127.0.0.1", 0), backlog=50) as server:

        def serve() -> None:
            with contextlib.suppress(OSError):
                while True:
                    threading.Thread(
                        target=drips, args=(server.accept()[0], way), daemon=True).start()

        threading.Thread(target=serve, daemon=True).start()
        yield f"http://127.0.0.1:{server.getsockname()[1]}"
        # (an accept that waits doesn't end with its socket)
        server.shutdown(socket.SHUT_RDWR)
