"""The data of page/wire/, which checks/wire compares with the sources."""
from __future__ import annotations

import json
import uuid
from typing import Any

from checks.support.tools import ROOT


FOLDER = ROOT / "page" / "wire"


def wire(name: str) -> Any:
    return json.loads((FOLDER / f"{name}.json").read_text(encoding="utf-8"))


def filled(path: str, number: str = "1", digest: str = "ab" * 32) -> str:
    """A path of openapi.json, of this number or digest."""
    return path.replace("{no}", number).replace("{digest}", digest)


# The number of each refusal with its name and the status of its responses (0: it has none).
REFUSALS: dict[int, tuple[str, int]] = {
    one["number"]: (one["name"], one["status"] or 0) for one in wire("refusals")
}
PHRASES: dict[int, str] = {int(number): said for number, said in wire("words")["statuses"].items()}
# The types of signature lists, by their names, as lists have them.
TYPES: dict[str, bytes] = {
    one["name"]: uuid.UUID(one["guid"]).bytes_le for one in wire("lists")["types"]
}
# The paths of commands: of what is posted with a key.
COMMANDS: list[str] = [
    path for path, has in wire("openapi")["paths"].items()
    if {"$ref": "#/components/parameters/DeskKey"} in has.get("post", {}).get("parameters", [])
]
