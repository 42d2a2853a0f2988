"""Servers of HTTP in this process, each at a port of its own."""
from __future__ import annotations

import contextlib
import threading
from http.server import BaseHTTPRequestHandler, ThreadingHTTPServer
from pathlib import Path
from typing import Callable, Iterator

# What a server answers at a path: the bytes, in pieces, or nothing, or where to look instead.
Pieces = Callable[[str], "Iterator[bytes] | str | None"]


def handler(pieces: Pieces, whole: bool, log: list[str]) -> type[BaseHTTPRequestHandler]:
    class Handler(BaseHTTPRequestHandler):
        def do_GET(self) -> None:
            log.append(self.path)
            found = pieces(self.path)
            if found is None:
                self.send_error(404)
                return
            if isinstance(found, str):
                self.send_response(302)
                self.send_header("Location", found)
                self.send_header("Content-Length", "0")
                self.end_headers()
                return
            self.send_response(200)
            if whole:
                data = b"".join(found)
                found = iter([data])
                self.send_header("Content-Length", str(len(data)))
            self.end_headers()
            with contextlib.suppress(OSError):
                for piece in found:
                    self.wfile.write(piece)

        def log_message(self, *_: object) -> None:
            pass

    return Handler


@contextlib.contextmanager
def served(pieces: Pieces, whole: bool = True) -> Iterator[tuple[str, list[str]]]:
    """The URL of a server of these answers, and the paths that it was asked for."""
    log: list[str] = []
    server = ThreadingHTTPServer(("127.0.0.1", 0), handler(pieces, whole, log))
    server.daemon_threads = True
    threading.Thread(target=server.serve_forever, daemon=True).start()
    try:
        yield f"http://127.0.0.1:{server.server_port}", log
    finally:
        server.shutdown()
        server.server_close()


def files(folder: Path) -> Pieces:
    """The files of a folder."""
    def found(path: str) -> Iterator[bytes] | None:
        at = folder / path[1:]
        return iter([at.read_bytes()]) if at.is_file() else None

    return found
