"""What is said of a file that is no list of revocations, by its name."""
from __future__ import annotations

import os
import re

from .described import WORDS

BROUGHT: dict[str, str] = WORDS["brought"]
# How certificates of the machine's owner are named: MOK-0001.der of mokutil, KEK.pem, PK.cer.
KEYS = re.compile(r"(?:^|[^a-z])(mok|kek|pk)(?![a-z])", re.I)


def certificate_steps(path: str) -> list[str]:
    """What is said of a certificate's file, and what to do with it."""
    key = KEYS.search(os.path.basename(path))
    kind = {"pk": "kek"}.get(key[1].lower(), key[1].lower()) if key else ""
    step = "`deskctl revoke --certificate FILE` proposes to revoke it."
    return ([BROUGHT[kind]] if kind else []) + ([step] if kind != "kek" else [])
