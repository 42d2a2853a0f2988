#!/usr/bin/env python3
"""On q: three officers' proposals, one after the other, each repeated with its key until the desk
acknowledges it. /root/acknowledged gets the time since q's start, the key and the number."""
from __future__ import annotations

import hashlib
import http.client
import json
import ssl
import time
from pathlib import Path

OFFICERS = ("olga", "otto", "oscar")
DONE = Path("/root/acknowledged")


def sent(context: ssl.SSLContext, who: str, key: str) -> bytes:
    """The desk's answer; nothing where none came, or another one's."""
    desk = http.client.HTTPSConnection("desk.example.org", timeout=60, context=context)
    token = Path(f"/root/{who}.token").read_text(encoding="ascii").strip()
    body = json.dumps({"digest": hashlib.sha256(key.encode()).hexdigest()})
    try:
        desk.request("POST", "/dbx/digests", body, {"Desk-Token": token, "Desk-Key": key})
        answer = desk.getresponse()
        return answer.read() if answer.status == 200 else b""
    except (OSError, http.client.HTTPException):
        return b""
    finally:
        desk.close()


def main() -> None:
    context = ssl.create_default_context(cafile="/etc/ssl/certs/desk.example.org.pem")
    DONE.touch()
    number = len(DONE.read_text(encoding="ascii").splitlines())
    with open(DONE, "a", buffering=1, encoding="ascii") as done:
        while True:
            key = f"k{number}"
            while not (answer := sent(context, OFFICERS[number % 3], key)):
                time.sleep(1)
            done.write(f"{time.monotonic():.1f} {key} {json.loads(answer)['proposal']}\n")
            number += 1
            time.sleep(1)


main()
