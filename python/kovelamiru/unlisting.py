"""What an unlisting costs: the signed files that one listed entry alone makes allowed."""
from __future__ import annotations

from typing import Iterable, Iterator

from .facts import Facts
from .sentences import minute
from .standing import Standing, barred_by


def returned_files(lines: Iterable[str]) -> Iterator[tuple[int, Facts]]:
    """By the minutes the facts of each signed file, behind its request's number."""
    for line in lines:
        call = minute(line) if "\treturn " in line else None
        if call and call.said:
            values = call.said.values
            yield int(values["REQUEST"]), Facts(
                int(values["LENGTH"]), int(values["GAP"]), values["FILE"], values["DIGEST"],
                values["SIGNING"], call.said.certificates(),
                [list(pair) for pair in call.said.components()])


def hangs_on(now: Standing, one: Facts, name: str) -> bool:
    """Whether an image is allowed, and by this listed entry alone."""
    by = {one.digest} & now.digests | now.certificates.keys() & set(one.carried)
    return by == {name} and barred_by(now, one) is None


def losing(now: Standing, lines: Iterable[str], name: str) -> list[int]:
    """The requests whose signed files are allowed by this listed entry alone."""
    return [number for number, one in returned_files(lines) if hangs_on(now, one, name)]
