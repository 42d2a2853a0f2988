"""The level for shim, by page/wire/cases/levels.json: it leaves out the names that upstream leaves
out, and none that alone bars an image. `deskctl level --for-shim` says which."""
from __future__ import annotations

from typing import Any

import pytest

from checks.support.deskctl import Office
from checks.support.says import expect
from checks.support.steps import raising
from checks.support.wire import wire
from kovelamiru.levels import covered, level_text, reached

LEVELS: dict[str, Any] = wire("cases/levels")


@pytest.mark.parametrize("case", LEVELS["cases"], ids=lambda case: str(case["name"]))
def test_the_names_that_are_left_out(case: dict[str, Any]) -> None:
    level = case["level"]
    found = covered(level, reached(level, case["proposals"]), case["images"])
    expect(found, case["left"], "what is left out")


def test_a_desk_that_follows_upstream_has_its_names_for_shim() -> None:
    level: dict[str, int] = {}
    proposals: list[dict[str, Any]] = []
    for one in LEVELS["upstream"]:
        if one["shim"] is None:
            continue
        higher = {name: to for name, to in one["names"].items() if to > level.get(name, 0)}
        level |= higher
        rows = [[*row] for row in higher.items()]
        proposals.append({"state": "confirmed", "stamp": one["stamp"], "components": rows})
        left = covered(level, reached(level, proposals), [])
        stays = {name: level[name] for name in level if name not in left}
        expect(level_text(one["stamp"], stays), level_text(one["stamp"], one["shim"]), "a level")


def test_a_desks_level_for_shim(office: Office) -> None:
    for number, (name, to, stamp) in enumerate(
        (("grub.debian", 4, 2023012900), ("shim", 4, 2024010900), ("grub", 5, 2025021800)), 1
    ):
        office.server.does("olga", "/level", raising(name, to, stamp))
        office.server.does("otto", f"/proposals/{number}/confirm", b"")
    out = office["olga"].does("level --for-shim", err=["left out: grub.debian,4. grub was raised"])
    expect(out, "sbat,1,2025021800\ngrub,5\nshim,4\n", "the level")
